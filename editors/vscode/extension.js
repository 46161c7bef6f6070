// Starts ti-lsp for terminfo source, hands it the texts that are open, and shows what it answers.
"use strict";

const fs = require("fs");
const path = require("path");
const vscode = require("vscode");
const { Connection } = require("./connection");
const values = require("./values");

const SELECTOR = [{ language: "terminfo", scheme: "file" }, { language: "terminfo", scheme: "untitled" }];
// what this client takes of the protocol
const CAPABILITIES = {
    general: { positionEncodings: ["utf-16"] },
    window: { showMessage: {} },
    workspace: { configuration: true, workspaceEdit: { documentChanges: true }, symbol: {} },
    textDocument: {
        synchronization: {},
        publishDiagnostics: { relatedInformation: true, tagSupport: { valueSet: [1, 2] }, versionSupport: true },
        hover: { contentFormat: ["markdown", "plaintext"] },
        completion: { completionItem: { documentationFormat: ["markdown", "plaintext"], tagSupport: { valueSet: [1] } } },
        definition: {},
        references: {},
        documentHighlight: {},
        rename: { prepareSupport: true },
        codeAction: {
            codeActionLiteralSupport: { codeActionKind: { valueSet: ["quickfix"] } },
            isPreferredSupport: true,
        },
        documentSymbol: { hierarchicalDocumentSymbolSupport: true },
        signatureHelp: { signatureInformation: { documentationFormat: ["markdown", "plaintext"] } },
        formatting: {},
        foldingRange: { lineFoldingOnly: true },
    },
};

// A server that runs, with what is shown of its answers.
class Client {
    constructor(command, log) {
        this.log = log;
        this.shown = vscode.languages.createDiagnosticCollection("ti-lsp");
        // by document: the diagnostics of the protocol, each with the one that is shown
        this.faults = new Map();
        this.parts = [this.shown];
        this.connection = new Connection(command, [], {
            notified: (method, params) => this.notified(method, params),
            asked: (method, params) => this.asked(method, params),
            said: text => log.append(text),
            ended: why => this.ended(command, why),
        });
    }

    async start() {
        const { userDefined, hints } = vscode.workspace.getConfiguration("ti");
        const asked = {
            processId: process.pid,
            clientInfo: { name: "Visual Studio Code", version: vscode.version },
            rootUri: null,
            capabilities: CAPABILITIES,
            initializationOptions: { ti: { userDefined, hints } },
        };
        const { capabilities } = await this.connection.request("initialize", asked);
        this.connection.notify("initialized", {});
        this.followDocuments(capabilities);
        this.offerAnswers(capabilities);
    }

    async stop() {
        await this.connection.stop();
        this.dispose();
    }

    dispose() {
        for (const part of this.parts.splice(0)) part.dispose();
    }

    ended(command, why) {
        this.dispose();
        const text = why === "ENOENT"
            ? `${command} is not found: install ti-lsp, or say by the setting ti.serverPath where it is`
            : `${command} ended (${why}), so terminfo source is not checked`;
        vscode.window.showErrorMessage(text);
    }

    // Messages of the server

    notified(method, params) {
        const shown = [
            vscode.window.showErrorMessage, vscode.window.showWarningMessage, vscode.window.showInformationMessage,
        ];
        if (method === "textDocument/publishDiagnostics") this.show(params);
        else if (method === "window/showMessage") (shown[params.type - 1] || shown[2])(params.message);
        else if (method === "window/logMessage") this.log.appendLine(params.message);
    }

    asked(method, params) {
        if (method === "workspace/configuration") return params.items.map(() => null);
        return ["client/registerCapability", "client/unregisterCapability"].includes(method) ? null : undefined;
    }

    show({ uri, diagnostics }) {
        const name = values.uri(uri);
        const pairs = diagnostics.map(fault => [fault, values.diagnostic(fault)]);
        this.faults.set(name.toString(), pairs);
        this.shown.set(name, pairs.map(([, shown]) => shown));
    }

    // Documents

    followDocuments({ textDocumentSync }) {
        const kind = typeof textDocumentSync === "object" ? textDocumentSync.change : textDocumentSync;
        const isOurs = document => vscode.languages.match(SELECTOR, document) > 0;
        const on = (event, act) => this.parts.push(event(act));
        on(vscode.workspace.onDidOpenTextDocument, document => isOurs(document) && this.opened(document));
        on(vscode.workspace.onDidCloseTextDocument, document => isOurs(document) && this.closed(document));
        on(vscode.workspace.onDidChangeTextDocument, ({ document, contentChanges }) => {
            if (isOurs(document) && contentChanges.length) this.changed(document, contentChanges, kind === 2);
        });
        vscode.workspace.textDocuments.filter(isOurs).forEach(document => this.opened(document));
    }

    opened(document) {
        const { languageId, version } = document;
        const textDocument = { uri: document.uri.toString(), languageId, version, text: document.getText() };
        this.connection.notify("textDocument/didOpen", { textDocument });
    }

    changed(document, changes, inParts) {
        const textDocument = { uri: document.uri.toString(), version: document.version };
        const parts = changes.map(change => ({ range: values.rangeOf(change.range), text: change.text }));
        const contentChanges = inParts ? parts : [{ text: document.getText() }];
        this.connection.notify("textDocument/didChange", { textDocument, contentChanges });
    }

    closed(document) {
        this.connection.notify("textDocument/didClose", { textDocument: { uri: document.uri.toString() } });
        this.faults.delete(document.uri.toString());
        this.shown.delete(document.uri);
    }

    // What is asked of a document

    async ask(method, document, more) {
        const textDocument = { uri: document.uri.toString() };
        return this.connection.request(`textDocument/${method}`, { textDocument, ...more });
    }

    offerAnswers(can) {
        const { languages } = vscode;
        const at = place => ({ position: values.placeOf(place) });
        const offer = (ability, register, provider, ...more) => {
            if (ability) this.parts.push(register.call(languages, SELECTOR, provider, ...more));
        };
        offer(can.hoverProvider, languages.registerHoverProvider, {
            provideHover: async (document, place) => values.hover(await this.ask("hover", document, at(place))),
        });
        offer(can.completionProvider, languages.registerCompletionItemProvider, {
            provideCompletionItems: async (document, place) =>
                values.completions(await this.ask("completion", document, at(place))),
        }, ...((can.completionProvider || {}).triggerCharacters || []));
        offer(can.definitionProvider, languages.registerDefinitionProvider, {
            provideDefinition: async (document, place) =>
                values.locations(await this.ask("definition", document, at(place))),
        });
        offer(can.referencesProvider, languages.registerReferenceProvider, {
            provideReferences: async (document, place, context) =>
                values.locations(await this.ask("references", document, { ...at(place), context })),
        });
        offer(can.documentHighlightProvider, languages.registerDocumentHighlightProvider, {
            provideDocumentHighlights: async (document, place) =>
                (await this.ask("documentHighlight", document, at(place)) || []).map(
                    mark => new vscode.DocumentHighlight(values.range(mark.range), mark.kind && mark.kind - 1),
                ),
        });
        offer(can.renameProvider, languages.registerRenameProvider, this.renaming(can.renameProvider, at));
        offer(can.codeActionProvider, languages.registerCodeActionsProvider, {
            provideCodeActions: (document, part, context) => this.actions(document, part, context),
        }, { providedCodeActionKinds: [vscode.CodeActionKind.QuickFix] });
        offer(can.documentSymbolProvider, languages.registerDocumentSymbolProvider, {
            provideDocumentSymbols: async document =>
                (await this.ask("documentSymbol", document) || []).map(values.symbol),
        });
        offer(can.documentFormattingProvider, languages.registerDocumentFormattingEditProvider, {
            provideDocumentFormattingEdits: async (document, options) =>
                values.edits(await this.ask("formatting", document, { options })),
        });
        offer(can.documentRangeFormattingProvider, languages.registerDocumentRangeFormattingEditProvider, {
            provideDocumentRangeFormattingEdits: async (document, part, options) =>
                values.edits(await this.ask("rangeFormatting", document, { range: values.rangeOf(part), options })),
        });
        offer(can.foldingRangeProvider, languages.registerFoldingRangeProvider, {
            provideFoldingRanges: async document =>
                (await this.ask("foldingRange", document) || []).map(values.folding),
        });
        offer(can.signatureHelpProvider, languages.registerSignatureHelpProvider, {
            provideSignatureHelp: async (document, place) =>
                values.signatures(await this.ask("signatureHelp", document, at(place))),
        }, ...((can.signatureHelpProvider || {}).triggerCharacters || []));
        if (can.workspaceSymbolProvider) {
            this.parts.push(languages.registerWorkspaceSymbolProvider({
                provideWorkspaceSymbols: async query =>
                    (await this.connection.request("workspace/symbol", { query }) || []).map(values.symbol),
            }));
        }
    }

    renaming(ability, at) {
        const provider = {
            provideRenameEdits: async (document, place, newName) =>
                values.workspaceEdit(await this.ask("rename", document, { ...at(place), newName })),
        };
        if (!ability.prepareProvider) return provider;
        provider.prepareRename = async (document, place) => {
            const answer = await this.ask("prepareRename", document, at(place));
            if (!answer) throw new Error("there is no name of an entry here");
            const part = values.range(answer.range || answer);
            return answer.placeholder ? { range: part, placeholder: answer.placeholder } : part;
        };
        return provider;
    }

    async actions(document, part, context) {
        // asked for again after the answer: what is shown may have changed before it
        const pairs = () => this.faults.get(document.uri.toString()) || [];
        const diagnostics = pairs().filter(([, shown]) => context.diagnostics.includes(shown)).map(([fault]) => fault);
        const only = context.only && [context.only.value];
        const asked = { range: values.rangeOf(part), context: { diagnostics, only } };
        const same = JSON.stringify;
        const known = fault => (pairs().find(([other]) => same(other) === same(fault)) || [])[1] || values.diagnostic(fault);
        return (await this.ask("codeAction", document, asked) || []).map(action => values.action(action, known));
    }
}

// The program: the one that is set, the one that came with the extension, or the one on the PATH.
function serverPath(extension) {
    const set = vscode.workspace.getConfiguration("ti").serverPath;
    const own = path.join(extension, "bin", "ti-lsp");
    return set || (fs.existsSync(own) ? own : "ti-lsp");
}

let client;

async function start(context, log) {
    client = new Client(serverPath(context.extensionPath), log);
    // why it failed is shown when the program ends
    await client.start().catch(fault => log.appendLine(fault.message));
}

exports.activate = async context => {
    const log = vscode.window.createOutputChannel("ti-lsp");
    const restart = async () => {
        await exports.deactivate();
        await start(context, log);
    };
    context.subscriptions.push(
        log,
        vscode.commands.registerCommand("ti.restart", restart),
        vscode.workspace.onDidChangeConfiguration(change => change.affectsConfiguration("ti") && restart()),
    );
    await start(context, log);
};

exports.deactivate = async () => {
    if (client) await client.stop();
    client = undefined;
};
