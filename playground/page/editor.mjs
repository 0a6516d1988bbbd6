// The editor: a text area, the numbers of its lines, and a mark at the place that an answer names.

const BLANK = '\u00a0';

export class Editor {
  #area;
  #numbers;
  #marks;
  #ruler;
  #place = null;

  constructor(area, numbers, marks, ruler) {
    this.#area = area;
    this.#numbers = numbers;
    this.#marks = marks;
    this.#ruler = ruler;
    const redraw = () => this.#draw();
    area.addEventListener('scroll', redraw);
    new ResizeObserver(redraw).observe(area);
    area.addEventListener('input', () => this.unmark());
  }

  get text() {
    return this.#area.value;
  }

  set text(text) {
    this.#area.value = text;
    this.#area.setSelectionRange(0, 0);
    this.#area.scrollTo(0, 0);
    this.unmark();
  }

  get #lineHeight() {
    return parseFloat(getComputedStyle(this.#area).lineHeight);
  }

  #widthOf(text) {
    this.#ruler.textContent = text;
    return this.#ruler.getBoundingClientRect().width;
  }

  /** Marks the token at a line and a column, both counted from 1 and the column in bytes, and brings it into sight. */
  mark({ line, column }) {
    const text = this.text;
    let start = 0;
    for (let number = 1; number < line; number++) start = text.indexOf('\n', start) + 1;
    const whole = text.slice(start, text.indexOf('\n', start) < 0 ? undefined : text.indexOf('\n', start));
    const before = new TextDecoder().decode(new TextEncoder().encode(whole).subarray(0, column - 1));
    const token = /^(?:'?\w+|:=|!=|.)/u.exec(whole.slice(before.length))?.[0] ?? BLANK;
    const left = this.#widthOf(before);
    this.#place = {
      line,
      left,
      width: this.#widthOf(before + token) - left,
      start: start + before.length,
      end: start + before.length + (token === BLANK ? 0 : token.length),
    };
    const area = this.#area;
    const top = (line - 1) * this.#lineHeight;
    if (top < area.scrollTop || top + 3 * this.#lineHeight > area.scrollTop + area.clientHeight) {
      area.scrollTop = top - area.clientHeight / 2;
    }
    if (left < area.scrollLeft || left + this.#place.width + 40 > area.scrollLeft + area.clientWidth) {
      area.scrollLeft = left - area.clientWidth / 2;
    }
    this.#draw();
  }

  unmark() {
    this.#place = null;
    this.#draw();
  }

  /** Puts the cursor at the mark. */
  goToMark() {
    this.#area.focus();
    if (this.#place) this.#area.setSelectionRange(this.#place.start, this.#place.end);
  }

  // Only the numbers in sight are there: a script may have a million lines.
  #draw() {
    const area = this.#area;
    const height = this.#lineHeight;
    const first = Math.floor(area.scrollTop / height);
    const count = Math.ceil(area.clientHeight / height) + 1;
    const lines = this.#countLines(first + count);
    const numbers = [];
    for (let number = first + 1; number <= Math.min(first + count, lines); number++) {
      const row = document.createElement('div');
      row.textContent = number;
      row.classList.toggle('marked', number === this.#place?.line);
      numbers.push(row);
    }
    this.#numbers.replaceChildren(...numbers);
    this.#numbers.style.transform = `translateY(${first * height - area.scrollTop}px)`;
    const mark = document.createElement('div');
    if (this.#place) {
      const { line, left, width } = this.#place;
      mark.style.transform = `translate(${left - area.scrollLeft}px, ${(line - 1) * height - area.scrollTop}px)`;
      mark.style.width = `${width}px`;
      mark.style.height = `${height}px`;
    }
    this.#marks.replaceChildren(...(this.#place ? [mark] : []));
  }

  // How many lines there are, but no more than a number.
  #countLines(most) {
    const text = this.#area.value;
    let lines = 1;
    for (let at = text.indexOf('\n'); at >= 0 && lines < most; at = text.indexOf('\n', at + 1)) lines++;
    return lines;
  }
}
