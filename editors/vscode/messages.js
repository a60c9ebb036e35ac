// The messages of both protocols: a header with the length of the body in bytes, and the body in JSON.
const HEAD_END = "\r\n\r\n";

/** A message as bytes. */
exports.framed = message => {
  const body = Buffer.from(JSON.stringify(message), "utf8");
  return Buffer.concat([Buffer.from(`Content-Length: ${body.length}${HEAD_END}`, "ascii"), body]);
};

/** Finds the messages in what a program writes, and hands each to `take`. */
exports.Reader = class {
  constructor(take) {
    this.take = take;
    this.left = Buffer.alloc(0);
  }

  add(bytes) {
    this.left = Buffer.concat([this.left, bytes]);
    for (let message = this.next(); message !== undefined; message = this.next()) this.take(message);
  }

  /** The next whole message, or undefined where it has not come yet. */
  next() {
    const head = this.left.indexOf(HEAD_END);
    if (head < 0) return undefined;
    const length = /content-length: *(\d+)/i.exec(this.left.toString("ascii", 0, head));
    const from = head + HEAD_END.length, to = from + Number(length ? length[1] : 0);
    if (this.left.length < to) return undefined;
    const body = this.left.toString("utf8", from, to);
    this.left = this.left.subarray(to);
    return JSON.parse(body);
  }
};
