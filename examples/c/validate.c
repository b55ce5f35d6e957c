/* Validates two nodes over files in memory, and prints what `shex validate` prints. Exits with its status. */
#include <shex.h>
#include <stdio.h>

#define TEXT(text) {(const uint8_t *)(text), sizeof(text) - 1}
#define FILE_OF(name, text) {TEXT(name), (const uint8_t *)(text), sizeof(text) - 1}

int main(void) {
    const shex_text words[] = {TEXT("validate"), TEXT("--schema"), TEXT("s.shex"), TEXT("--data"), TEXT("d.ttl"),
                               TEXT("--map"),    TEXT("m"),        TEXT("--proof"), TEXT("p")};
    const shex_file files[] = {
        FILE_OF("s.shex", "PREFIX e: <http://e.example/> e:Friend { e:knows . }"),
        FILE_OF("d.ttl", "@prefix e: <http://e.example/> . e:ann e:knows e:bob ."),
        FILE_OF("m", "e:ann@<http://e.example/Friend>, e:bob@!<http://e.example/Friend>"),
    };
    const shex_request request = {words, sizeof words / sizeof *words, files, sizeof files / sizeof *files, TEXT("p")};
    static uint8_t output[4096], errors[4096], proof[65536];
    shex_reply reply = {{output, sizeof output, 0}, {errors, sizeof errors, 0}, {proof, sizeof proof, 0}};
    const uint8_t status = shex_call(&request, &reply);
    if (reply.output.count > reply.output.room || reply.errors.count > reply.errors.room || reply.file.count > reply.file.room) {
        fputs("more room is wanted\n", stderr);
        return SHEX_MEMORY;
    }
    fwrite(output, 1, reply.output.count, stdout);
    fwrite(errors, 1, reply.errors.count, stderr);
    printf("status %d, proof of %zu bytes\n", status, reply.file.count);
    return status;
}
