import java.util.concurrent.atomic.AtomicLong;
import org.apache.jena.graph.Graph;
import org.apache.jena.riot.RDFDataMgr;
import org.apache.jena.shex.Shex;
import org.apache.jena.shex.ShexMap;
import org.apache.jena.shex.ShexReport;
import org.apache.jena.shex.ShexSchema;
import org.apache.jena.shex.ShexStatus;
import org.apache.jena.shex.ShexValidator;

/** Validates data by Jena's ShEx, and prints how many associations conform and how many do not. */
public class JenaValidate {
    /** The words are the files of the schema, of the data and of the shape map. */
    public static void main(String[] words) {
        ShexSchema schema = Shex.readSchema(words[0]);
        Graph graph = RDFDataMgr.loadGraph(words[1]);
        ShexMap map = Shex.readShapeMap(words[2]);
        ShexReport report = ShexValidator.get().validate(graph, schema, map);
        AtomicLong conformant = new AtomicLong();
        AtomicLong nonconformant = new AtomicLong();
        report.forEachReport(record -> (record.status == ShexStatus.conformant ? conformant : nonconformant).incrementAndGet());
        System.out.println("conformant " + conformant + " nonconformant " + nonconformant);
    }
}
