var katescript = {
    "name": "Fullsub",
    "author": "Moorbasket",
    "license": "",
    "revision": 1,
    "kate-version": "5.1",
    "indent-languages": ["Fullsub"]
}; // kate-script-header, must be at the start of the file without comments, pure json

// How lines of fullsub files are indented. Kate calls `indent` with a line, and when one of these is typed.
var triggerCharacters = ")}";

// One step. The width that Kate passes is often the one that it guesses from the lines of a comment, which stand three columns in.
var step = 4;

// The last sign before the place that `wanted` takes and that stands outside of comments: its place and itself, or null.
function back(line, column, wanted) {
    for (; line >= 0; line--, column = line >= 0 ? document.lineLength(line) : 0) {
        for (column--; column >= 0; column--) {
            var sign = document.charAt(line, column);
            if (wanted.test(sign) && !document.isComment(line, column))
                return { line: line, column: column, sign: sign };
        }
    }
    return null;
}

// Where the comment begins that is open at the start of the line, or null.
function comment(line) {
    var depth = 0;
    for (var above = line - 1; above >= 0; above--) {
        for (var column = document.lineLength(above) - 1; column > 0; column--) {
            var mark = document.charAt(above, column - 1) + document.charAt(above, column);
            if (mark != "/*" && mark != "*/")
                continue;
            column--;
            depth += mark == "/*" ? 1 : -1;
            if (depth > 0)
                return { line: above, column: column };
        }
    }
    return null;
}

// A command begins in the first column. A broken line stands one step behind the line of the bracket around it, or one step in. The
// lines of a comment stand below its words.
function indent(line, _, typed) {
    var open = comment(line);
    if (open)
        return document.toVirtualColumn(open.line, open.column) + 3;
    var before = back(line, 0, /\S/);
    if (!before || before.sign == ";")
        return 0;
    // Kate closes a bracket by itself: behind a line break where something is missing, that comes first, and not the closing one.
    var closes = /^\s*[)}]/.test(document.line(line)) && !(typed == "\n" && /[({,=:.>]/.test(before.sign));
    var closed = 0;
    for (var at = back(line, 0, /[;(){}]/); at && at.sign != ";"; at = back(at.line, at.column, /[;(){}]/)) {
        if (/[)}]/.test(at.sign))
            closed++;
        else if (closed > 0)
            closed--;
        else
            return document.firstVirtualColumn(at.line) + (closes ? 0 : step);
    }
    return step;
}
