// The Language Server Protocol with a program: frames over its standard streams, and requests and
// their answers. It knows nothing of Visual Studio Code.
"use strict";

const { spawn } = require("child_process");

// An error of the protocol, in a response of either side.
const METHOD_NOT_FOUND = -32601;

// Cuts the bytes that come into messages.
class Frames {
    constructor(taken) {
        this.taken = taken;
        this.bytes = Buffer.alloc(0);
    }

    // Takes the next bytes, and hands on each message that is whole.
    add(bytes) {
        this.bytes = Buffer.concat([this.bytes, bytes]);
        for (;;) {
            const end = this.bytes.indexOf("\r\n\r\n");
            if (end < 0) return;
            const length = /^content-length: *(\d+)\s*$/im.exec(this.bytes.toString("latin1", 0, end));
            if (!length) throw new Error("a message without its length");
            const from = end + 4, to = from + Number(length[1]);
            if (this.bytes.length < to) return;
            const text = this.bytes.toString("utf8", from, to);
            this.bytes = this.bytes.subarray(to);
            this.taken(JSON.parse(text));
        }
    }
}

// The bytes of a message.
function framed(message) {
    const text = Buffer.from(JSON.stringify({ jsonrpc: "2.0", ...message }), "utf8");
    return Buffer.concat([Buffer.from(`Content-Length: ${text.length}\r\n\r\n`, "latin1"), text]);
}

// A program that is a server, and what is asked of it.
class Connection {
    // `handlers` has `notified(method, params)`, `asked(method, params)`, which gives the answer or
    // undefined if it knows none, and `ended(why)`, called once, when the program is gone.
    constructor(command, words, handlers) {
        this.handlers = handlers;
        this.waiting = new Map();
        this.lastId = 0;
        this.isOver = false;
        this.process = spawn(command, words, { stdio: ["pipe", "pipe", "pipe"] });
        const frames = new Frames(message => this.take(message));
        this.process.stdout.on("data", bytes => {
            try {
                frames.add(bytes);
            } catch (fault) {
                this.close(fault.message);
            }
        });
        this.process.stderr.on("data", bytes => handlers.said && handlers.said(bytes.toString("utf8")));
        // the process has ended then, which is reported by its exit
        this.process.stdin.on("error", () => {});
        this.process.on("error", fault => this.close(fault.code || fault.message));
        this.process.on("exit", (status, signal) => this.close(signal || `status ${status}`));
    }

    // Sends a request; returns the result, or throws the error of the response.
    request(method, params) {
        if (this.isOver) return Promise.reject(new Error("the server is gone"));
        const id = ++this.lastId;
        this.process.stdin.write(framed({ id, method, params }));
        return new Promise((answered, refused) => this.waiting.set(id, { answered, refused }));
    }

    // Sends a notification.
    notify(method, params) {
        if (!this.isOver) this.process.stdin.write(framed({ method, params }));
    }

    // Takes a message of the server.
    take(message) {
        if (message.method === undefined) {
            const waiting = this.waiting.get(message.id);
            this.waiting.delete(message.id);
            if (!waiting) return;
            if (message.error) waiting.refused(new Error(message.error.message));
            else waiting.answered(message.result);
        } else if (message.id === undefined) {
            this.handlers.notified(message.method, message.params);
        } else {
            const result = this.handlers.asked(message.method, message.params);
            const error = { code: METHOD_NOT_FOUND, message: `no ${message.method} here` };
            const answer = result === undefined ? { error } : { result };
            this.process.stdin.write(framed({ id: message.id, ...answer }));
        }
    }

    // Ends the server as the protocol has it, or by a signal if it does not end.
    async stop(milliseconds = 2000) {
        if (this.isOver) return;
        this.handlers.ended = () => {};
        const gone = new Promise(ended => this.process.once("exit", ended));
        const late = setTimeout(() => this.process.kill(), milliseconds);
        await this.request("shutdown", null).catch(() => {});
        this.notify("exit", null);
        await gone;
        clearTimeout(late);
    }

    close(why) {
        if (this.isOver) return;
        this.isOver = true;
        for (const { refused } of this.waiting.values()) refused(new Error("the server is gone"));
        this.waiting.clear();
        this.process.kill();
        this.handlers.ended(why);
    }
}

module.exports = { Connection, Frames, framed };
