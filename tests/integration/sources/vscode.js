// A substitute for the module `vscode`: the values that the extension makes, the providers that it
// registers, and documents that a test opens and edits.
"use strict";

const path = require("path");

class Position {
    constructor(line, character) {
        Object.assign(this, { line, character });
    }
}
class Range {
    constructor(start, end) {
        Object.assign(this, { start, end });
    }
}
class Uri {
    constructor(text) {
        this.text = text;
        this.scheme = text.split(":")[0];
    }
    static parse(text) {
        return new Uri(text);
    }
    toString() {
        return this.text;
    }
}
// a class that keeps what it is made of under these names
const made = (...names) => class {
    constructor(...values) {
        names.forEach((name, at) => (this[name] = values[at]));
    }
};
class MarkdownString {
    constructor(value = "") {
        this.value = value;
    }
    appendText(text) {
        this.value += text;
        return this;
    }
}
class WorkspaceEdit {
    constructor() {
        this.lists = [];
    }
    set(uri, edits) {
        this.lists.push([uri, edits]);
    }
}
class TextEdit extends made("range", "newText") {
    static replace(range, text) {
        return new TextEdit(range, text);
    }
}
class Kind {
    constructor(value) {
        this.value = value;
    }
    append(part) {
        return new Kind(this.value ? `${this.value}.${part}` : part);
    }
}

// An event: what is registered is called with what is told.
function event() {
    const all = new Set();
    const on = act => {
        all.add(act);
        return { dispose: () => all.delete(act) };
    };
    on.tell = value => all.forEach(act => act(value));
    return on;
}

// A text that is open.
class Document {
    constructor(file, text) {
        Object.assign(this, { uri: new Uri(`file://${path.resolve(file)}`), languageId: "terminfo", version: 1, text });
    }
    getText(part) {
        return part ? this.text.slice(this.offsetAt(part.start), this.offsetAt(part.end)) : this.text;
    }
    offsetAt({ line, character }) {
        return this.text.split("\n").slice(0, line).join("\n").length + (line ? 1 : 0) + character;
    }
    // Exchanges parts of the text, the last ones first, as the editor tells it.
    edit(edits) {
        const ordered = edits.map(edit => [this.offsetAt(edit.range.start), edit]).sort((a, b) => b[0] - a[0]);
        for (const [at, { range, newText }] of ordered) {
            this.text = this.text.slice(0, at) + newText + this.text.slice(this.offsetAt(range.end));
        }
        this.version++;
        const contentChanges = ordered.map(([, { range, newText }]) => ({ range, text: newText }));
        workspace.onDidChangeTextDocument.tell({ document: this, contentChanges });
    }
}

const providers = {};
const said = [];
const shown = new Map();
const settings = {};
const register = name => (selector, provider, ...more) => {
    providers[name] = Object.assign(provider, { more });
    return { dispose: () => delete providers[name] };
};
const languages = {
    match: (selector, { languageId, uri }) =>
        selector.some(one => one.language === languageId && one.scheme === uri.scheme) ? 10 : 0,
    createDiagnosticCollection: () => ({
        set: (uri, faults) => shown.set(uri.toString(), faults),
        delete: uri => shown.delete(uri.toString()),
        dispose: () => shown.clear(),
    }),
    registerWorkspaceSymbolProvider: provider => register("WorkspaceSymbol")(null, provider),
};
for (const name of ["Hover", "CompletionItem", "Definition", "Reference", "DocumentHighlight", "Rename", "CodeActions",
    "DocumentSymbol", "DocumentFormattingEdit", "DocumentRangeFormattingEdit", "FoldingRange", "SignatureHelp"]) {
    languages[`register${name}Provider`] = register(name);
}
const workspace = {
    textDocuments: [],
    onDidOpenTextDocument: event(),
    onDidChangeTextDocument: event(),
    onDidCloseTextDocument: event(),
    onDidChangeConfiguration: event(),
    getConfiguration: () => settings,
};
const say = text => said.push(text);

module.exports = {
    version: "0", languages, workspace, Position, Range, Uri, MarkdownString, WorkspaceEdit, TextEdit,
    window: {
        showErrorMessage: say, showWarningMessage: say, showInformationMessage: say,
        createOutputChannel: () => ({ append() {}, appendLine() {}, dispose() {} }),
    },
    commands: { registerCommand: () => ({ dispose() {} }) },
    Location: made("uri", "range"),
    Diagnostic: made("range", "message", "severity"),
    DiagnosticRelatedInformation: made("location", "message"),
    DiagnosticSeverity: { Error: 0, Warning: 1, Information: 2, Hint: 3 },
    Hover: made("contents", "range"),
    CompletionItem: made("label", "kind"),
    CompletionList: made("items", "isIncomplete"),
    CompletionItemTag: { Deprecated: 1 },
    CodeAction: made("title", "kind"),
    CodeActionKind: { Empty: new Kind(""), QuickFix: new Kind("quickfix") },
    DocumentSymbol: made("name", "detail", "kind", "range", "selectionRange"),
    SymbolInformation: made("name", "kind", "containerName", "location"),
    DocumentHighlight: made("range", "kind"),
    FoldingRange: made("start", "end", "kind"),
    FoldingRangeKind: { Comment: 1, Imports: 2, Region: 3 },
    SignatureHelp: made(),
    SignatureInformation: made("label", "documentation"),
    ParameterInformation: made("label", "documentation"),
    // for the test
    stub: { providers, said, shown, settings, Document },
};
