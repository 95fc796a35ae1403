// The steps that were carried out since the page was opened, of a variant, and those of them that were taken back.

export class History {
  constructor() { Object.assign(this, {done: [], undone: []}); }

  // A new step. What was taken back before it can no longer be done again.
  add(step) {
    this.done.push(step);
    this.undone = [];
  }

  // The step that would be taken back, or done again.
  next(isBack) { return (isBack ? this.done : this.undone).at(-1) ?? null; }

  // It is taken back, or done again.
  turn(isBack) {
    const [from, to] = isBack ? [this.done, this.undone] : [this.undone, this.done];
    to.push(from.pop());
  }

  // Of the next step a part was taken back, or done again: it is a step of its own from then on.
  part(isBack, turned, left) {
    Object.assign(this.next(isBack), left);
    (isBack ? this.undone : this.done).push(turned);
  }
}
