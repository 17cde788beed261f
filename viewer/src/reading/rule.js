/* ---- The rule of streams: which message may come after those before it. */

/** The state of a stream: the ids that are down on each device as bits, the next repeat of each key, the focus. */
class StreamRule {
  down = new Map();
  repeats = new Map();
  focused = false;

  /** Takes a message; false where it may not come. */
  take(message) { return this[message.kind](message); }

  focus({ gained }) {
    const may = gained !== this.focused;
    this.focused = gained;
    return may;
  }

  motion({ device, action, index, canceled, obscured, partly, pointers }) {
    const down = this.down.get(device) || 0;
    const listed = pointers.reduce((bits, pointer) => bits | (1 << pointer.id), 0);
    const indexed = 1 << pointers[index].id;
    const one = pointers.length === 1;
    const rules = {
      DOWN: [down === 0 && one, listed],
      POINTER_DOWN: [down !== 0 && (down & indexed) === 0 && (down | indexed) === listed, listed],
      MOVE: [down === listed, down],
      POINTER_UP: [down === listed && !one, down & ~indexed],
      UP: [down === listed && one, 0],
      CANCEL: [down === listed, 0],
      OUTSIDE: [one, down],
    };
    const [may, after] = rules[action];
    this.down.set(device, after);
    return may && (!canceled || action === "POINTER_UP") && !((obscured || partly) && action === "OUTSIDE");
  }

  key({ device, scan, down, repeat }) {
    const key = device + ":" + scan;
    const next = this.repeats.get(key);
    if (down) {
      this.repeats.set(key, repeat + 1);
      return repeat === (next || 0);
    }
    this.repeats.delete(key);
    return next !== undefined && repeat === 0;
  }
}

/** The line of the first message that may not come, or null. */
function firstBreak(stream) {
  for (const section of stream.sections) {
    const rule = new StreamRule();
    const wrong = section.messages.find((message) => !rule.take(message));
    if (wrong) { return wrong.line; }
  }
  return null;
}
