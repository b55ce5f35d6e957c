// Where a triple stands in a text of Turtle or N-Triples: for the page, which shows it. Nothing is decided by this file: where it
// reads a text otherwise than the validator, the page goes to another place, or to none.
'use strict';

const XSD = 'http://www.w3.org/2001/XMLSchema#';
const RDF = 'http://www.w3.org/1999/02/22-rdf-syntax-ns#';

/** The tokens of Turtle, each with the name of its kind. Behind a prefixed name and a label no full stop belongs to it. */
const TOKENS = new RegExp([
  '(?<space>(?:[ \\t\\r\\n]+|#[^\\r\\n]*)+)',
  '(?<iri><(?:[^\\x00-\\x20<>"{}|^`\\\\]|\\\\u[0-9A-Fa-f]{4}|\\\\U[0-9A-Fa-f]{8})*>)',
  '(?<long>"""(?:"{0,2}(?:[^"\\\\]|\\\\[^]))*"""|\'\'\'(?:\'{0,2}(?:[^\'\\\\]|\\\\[^]))*\'\'\')',
  '(?<short>"(?:[^"\\\\\\r\\n]|\\\\[^])*"|\'(?:[^\'\\\\\\r\\n]|\\\\[^])*\')',
  '(?<directive>@(?:prefix|base)\\b)',
  '(?<tag>@[A-Za-z]+(?:-[A-Za-z0-9]+)*)',
  '(?<label>_:[\\p{L}\\p{N}_](?:[\\p{L}\\p{N}_.\\-\\u00B7]*[\\p{L}\\p{N}_\\-\\u00B7])?)',
  '(?<name>(?:\\p{L}(?:[\\p{L}\\p{N}_.\\-]*[\\p{L}\\p{N}_\\-])?)?:(?:(?:[\\p{L}\\p{N}_:\\-.]|%[0-9A-Fa-f]{2}|\\\\[^])*(?:[\\p{L}\\p{N}_:\\-]|%[0-9A-Fa-f]{2}|\\\\[^]))?)',
  '(?<double>[+\\-]?(?:[0-9]+\\.?[0-9]*|\\.[0-9]+)[eE][+\\-]?[0-9]+)',
  '(?<decimal>[+\\-]?[0-9]*\\.[0-9]+)',
  '(?<integer>[+\\-]?[0-9]+)',
  '(?<word>[A-Za-z]+)',
  '(?<sign>\\^\\^|[\\[\\](){};,.])',
].join('|'), 'yu');

const ESCAPES = { t: '\t', b: '\b', n: '\n', r: '\r', f: '\f' };

function unescaped(text) {
  return text.replace(/\\(?:u([0-9A-Fa-f]{4})|U([0-9A-Fa-f]{8})|([^]))/gu, (_, four, eight, one) =>
    one === undefined ? String.fromCodePoint(parseInt(four ?? eight, 16)) : ESCAPES[one] ?? one);
}

const iri = (value) => `<${value}>`;
const blank = (name) => `_:${name}`;
/** A literal with its parts apart, so that two spellings of one literal are the same text. */
const literal = (lexical, datatype, tag = '') => JSON.stringify([lexical, datatype, tag.toLowerCase()]);

/** Reads a document statement by statement and calls `found(subject, predicate, object, start, end)` for each triple. */
class Places {
  constructor(text, base, found) {
    Object.assign(this, { text, base, found, at: 0, prefixes: new Map(), anonymous: 0 });
    this.next();
  }

  next() {
    for (;;) {
      this.end = this.at;
      if (this.at >= this.text.length) { this.kind = 'end'; this.token = ''; return; }
      TOKENS.lastIndex = this.at;
      const match = TOKENS.exec(this.text);
      if (!match) throw new SyntaxError(`no token at ${this.at}`);
      this.start = this.at;
      this.at = TOKENS.lastIndex;
      [this.kind] = Object.entries(match.groups).find(([, value]) => value !== undefined);
      this.token = match[0];
      if (this.kind !== 'space') return;
    }
  }

  /** Passes over a sign or a keyword. */
  take(token) {
    if (this.token !== token) throw new SyntaxError(`no ${token} at ${this.start}`);
    this.next();
  }

  is(token) {
    return this.token === token && this.kind !== 'short' && this.kind !== 'long';
  }

  resolved(reference) {
    if (/^[A-Za-z][A-Za-z0-9+.-]*:/.test(reference)) return iri(reference);
    try { return iri(new URL(reference, this.base).href); } catch { return iri(reference); }
  }

  named() {
    const colon = this.token.indexOf(':');
    const rest = this.token.slice(colon + 1).replace(/\\([^])/gu, '$1');
    return iri((this.prefixes.get(this.token.slice(0, colon)) ?? '') + rest);
  }

  document() {
    while (this.kind !== 'end') this.statement();
  }

  statement() {
    const lower = this.token.toLowerCase();
    if (this.kind === 'directive' || (this.kind === 'word' && (lower === 'prefix' || lower === 'base'))) { this.directive(lower); return; }
    const bracketed = this.is('[');
    const subject = this.term();
    if (!(bracketed && this.is('.'))) this.pairs(subject);
    this.take('.');
  }

  directive(word) {
    const dotted = word.startsWith('@');
    this.next();
    const prefix = word.endsWith('prefix') ? this.token.slice(0, -1) : null;
    if (prefix !== null) this.next();
    const value = this.resolved(unescaped(this.token.slice(1, -1))).slice(1, -1);
    this.next();
    if (prefix === null) this.base = value; else this.prefixes.set(prefix, value);
    if (dotted) this.take('.');
  }

  pairs(subject) {
    for (;;) {
      while (this.is(';')) this.next();
      if (this.is('.') || this.is(']')) return;
      const predicate = this.kind === 'word' && this.token === 'a' ? (this.next(), iri(`${RDF}type`)) : this.term();
      do {
        if (this.is(',')) this.next();
        const start = this.start;
        const object = this.term();
        this.found(subject, predicate, object, start, this.last);
      } while (this.is(','));
      if (!this.is(';')) return;
    }
  }

  /** Ends a token that is a term of its own. */
  ended(term) {
    this.last = this.at;
    this.next();
    return term;
  }

  term() {
    const { kind, token } = this;
    switch (kind) {
      case 'iri': return this.ended(this.resolved(unescaped(token.slice(1, -1))));
      case 'name': return this.ended(this.named());
      case 'label': return this.ended(blank(token.slice(2)));
      case 'integer': case 'decimal': case 'double': return this.ended(literal(token, XSD + kind));
      case 'long': return this.string(unescaped(token.slice(3, -3)));
      case 'short': return this.string(unescaped(token.slice(1, -1)));
      case 'word': return this.ended(literal(token, `${XSD}boolean`));
      default:
    }
    if (this.is('[')) return this.bracketed();
    if (this.is('(')) return this.collection();
    throw new SyntaxError(`no term at ${this.start}`);
  }

  string(lexical) {
    this.last = this.at;
    this.next();
    if (this.kind === 'tag') return this.ended(literal(lexical, `${RDF}langString`, this.token.slice(1)));
    if (!this.is('^^')) return literal(lexical, `${XSD}string`);
    this.next();
    return literal(lexical, this.term().slice(1, -1));
  }

  fresh() {
    this.anonymous += 1;
    return blank(`anon${this.anonymous - 1}`);
  }

  bracketed() {
    const node = this.fresh();
    this.next();
    this.pairs(node);
    this.last = this.at;
    this.take(']');
    return node;
  }

  collection() {
    this.next();
    const items = [];
    while (!this.is(')')) { const start = this.start; items.push([this.term(), start, this.last]); }
    this.last = this.at;
    this.next();
    if (!items.length) return iri(`${RDF}nil`);
    const nodes = items.map(() => this.fresh());
    items.forEach(([item, start, end], n) => {
      this.found(nodes[n], iri(`${RDF}first`), item, start, end);
      this.found(nodes[n], iri(`${RDF}rest`), nodes[n + 1] ?? iri(`${RDF}nil`), start, end);
    });
    return nodes[0];
  }
}

/**
 * The place of a triple, which is given as a line of N-Triples, in a text of Turtle or N-Triples.
 * @returns {[number, number] | null} where its object begins and ends, or null where it was not found
 */
function placeOfTriple(text, base, line) {
  let wanted = '';
  let place = null;
  const key = (...terms) => terms.join(' ');
  try {
    new Places(line, base, (...triple) => { wanted = key(...triple.slice(0, 3)); }).document();
    new Places(text, base, (subject, predicate, object, start, end) => {
      if (!place && key(subject, predicate, object) === wanted) place = [start, end];
    }).document();
  } catch (error) {
    if (!(error instanceof SyntaxError)) throw error;
  }
  return place;
}
