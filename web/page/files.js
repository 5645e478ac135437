// Files that are chosen or dropped: read as far as any input may be long, and known by what the desk says of them.
const files = (() => {
  const MOST = { book: 65536, returns: 4194304, names: 4194304 };

  // The bytes of a file, one more than may be at the most, so that the desk refuses a longer one without that all of it is read; or an error.
  const read = async (file, most) => {
    try {
      return { bytes: new Uint8Array(await file.slice(0, most + 1).arrayBuffer()) };
    } catch (error) {
      return { error };
    }
  };

  // The offset of the first word of a rulebook's text, after blanks and comments.
  const firstWord = text => /^(\s|#[^\n]*(\n|$))*/.exec(text)[0].length;

  // What a text is by the refusals alone, where the desk takes it as nothing: a rulebook whose first words are good, returns with a good header, or else
  // what it looks most like.
  const nearest = (text, bookLine, returnsLine) => {
    const [kind, , at] = bookLine.split(" ").slice(2);
    if (kind === "check" || (kind === "parse" && Number(at) > new TextEncoder().encode(text.slice(0, firstWord(text))).length)) return "book";
    if (/^refused returns \d+ /.test(returnsLine) && outputs.rowOf(returnsLine) > 1) return "returns";
    if (/^[\s#]*(#[^\n]*\n\s*)*rulebook\b/.test(text)) return "book";
    return "returns";
  };

  // What a file is: the desk takes it as a rulebook, as returns, or as full names; or it is what it comes nearest to.
  const kindOf = async bytes => {
    const book = bytes.length <= MOST.book + 1 ? await answers.checked(bytes) : { status: 2, line: "" };
    if (book.status === 0) return "book";
    const summed = await answers.withoutBook(bytes);
    if (summed.status === 0) return "returns";
    const near = nearest(decoded(bytes.slice(0, MOST.book)), book.line, summed.text);
    if (near === "book" || outputs.rowOf(summed.text) > 1) return near;
    return bytes.length && !(await names.refused(bytes)) ? "names" : near;
  };

  return { MOST, read, kindOf };
})();
