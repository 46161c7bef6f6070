// Values of the protocol as values of Visual Studio Code, and the other way round.
"use strict";

const vscode = require("vscode");

const SEVERITIES = [
    vscode.DiagnosticSeverity.Error, vscode.DiagnosticSeverity.Warning,
    vscode.DiagnosticSeverity.Information, vscode.DiagnosticSeverity.Hint,
];

const position = place => new vscode.Position(place.line, place.character);
const range = part => new vscode.Range(position(part.start), position(part.end));
const placeOf = at => ({ line: at.line, character: at.character });
const rangeOf = part => ({ start: placeOf(part.start), end: placeOf(part.end) });
const uri = text => vscode.Uri.parse(text);
const location = place => new vscode.Location(uri(place.uri), range(place.range));
const locations = answer => [answer || []].flat().map(location);
const edits = answer => (answer || []).map(edit => vscode.TextEdit.replace(range(edit.range), edit.newText));

// Lines that may be folded.
function folding(part) {
    const kind = part.kind === "comment" ? vscode.FoldingRangeKind.Comment : undefined;
    return new vscode.FoldingRange(part.startLine, part.endLine, kind);
}

// A text that may be Markdown.
function text(content) {
    if (content === undefined || content === null) return undefined;
    return content.kind === "markdown" ? new vscode.MarkdownString(content.value) : (content.value || content);
}

function diagnostic(fault) {
    const made = new vscode.Diagnostic(range(fault.range), fault.message, SEVERITIES[(fault.severity || 1) - 1]);
    made.code = fault.code;
    made.source = fault.source;
    made.tags = fault.tags;
    made.relatedInformation = (fault.relatedInformation || []).map(
        other => new vscode.DiagnosticRelatedInformation(location(other.location), other.message),
    );
    return made;
}

function hover(answer) {
    if (!answer) return undefined;
    const shown = text(answer.contents);
    // plain text keeps its lines
    const content = typeof shown === "string" ? new vscode.MarkdownString().appendText(shown) : shown;
    return new vscode.Hover(content, answer.range && range(answer.range));
}

function completion(item) {
    const made = new vscode.CompletionItem(item.label, item.kind && item.kind - 1);
    made.detail = item.detail;
    made.documentation = text(item.documentation);
    made.sortText = item.sortText;
    made.filterText = item.filterText;
    made.tags = item.tags || (item.deprecated ? [vscode.CompletionItemTag.Deprecated] : undefined);
    made.insertText = item.textEdit ? item.textEdit.newText : item.insertText;
    if (item.textEdit) made.range = range(item.textEdit.range || item.textEdit.replace);
    return made;
}

function completions(answer) {
    const list = answer || [];
    return new vscode.CompletionList((list.items || list).map(completion), list.isIncomplete || false);
}

function workspaceEdit(answer) {
    if (!answer) return undefined;
    const made = new vscode.WorkspaceEdit();
    for (const [name, list] of Object.entries(answer.changes || {})) made.set(uri(name), edits(list));
    for (const change of answer.documentChanges || []) made.set(uri(change.textDocument.uri), edits(change.edits));
    return made;
}

// An action; `known` gives the shown diagnostic of one of the protocol.
function action(answer, known) {
    const kind = answer.kind ? vscode.CodeActionKind.Empty.append(answer.kind) : undefined;
    const made = new vscode.CodeAction(answer.title, kind);
    made.edit = workspaceEdit(answer.edit);
    made.isPreferred = answer.isPreferred;
    made.diagnostics = (answer.diagnostics || []).map(known);
    return made;
}

function symbol(answer) {
    if (answer.location) {
        return new vscode.SymbolInformation(answer.name, answer.kind - 1, answer.containerName || "", location(answer.location));
    }
    const parts = [range(answer.range), range(answer.selectionRange)];
    const made = new vscode.DocumentSymbol(answer.name, answer.detail || "", answer.kind - 1, ...parts);
    made.children = (answer.children || []).map(symbol);
    return made;
}

function signatures(answer) {
    if (!answer) return undefined;
    const made = new vscode.SignatureHelp();
    made.activeSignature = answer.activeSignature || 0;
    made.activeParameter = answer.activeParameter || 0;
    made.signatures = answer.signatures.map(one => {
        const signature = new vscode.SignatureInformation(one.label, text(one.documentation));
        const parameter = part => new vscode.ParameterInformation(part.label, text(part.documentation));
        signature.parameters = (one.parameters || []).map(parameter);
        return signature;
    });
    return made;
}

module.exports = {
    action, completions, diagnostic, edits, folding, hover, location, locations, placeOf, position, range, rangeOf,
    signatures, symbol, uri, workspaceEdit,
};
