'use strict';
const PAGE = 100;
const SMALL = 12; // a table with no more rows has no filter

function node(name, text, kind) {
  const made = document.createElement(name);
  if (text !== undefined && text !== null) made.textContent = text;
  if (kind) made.className = kind;
  return made;
}

function button(text, label, act) {
  const made = node('button', text);
  made.type = 'button';
  if (label) { made.setAttribute('aria-label', label); made.title = label; }
  made.onclick = act;
  return made;
}

// Digits are found with their commas and without.
const plain = text => text.replace(/(\d),(?=\d)/g, '$1');

class Table {
  constructor(home) {
    this.home = home;
    this.table = home.querySelector('table');
    this.body = this.table.tBodies[0];
    this.rows = [...this.body.rows];
    this.heads = [...this.table.tHead.rows[0].cells];
    this.titles = this.heads.map(head => head.textContent);
    this.choice = Number(home.dataset.choice);
    this.order = null;
    this.down = false;
    this.page = 0;
    this.only = null;
    if (this.choice >= 0) this.makeTools();
    this.makeHeads();
    this.show();
  }

  makeTools() {
    this.tools = node('div', null, 'tools');
    this.search = node('input');
    this.search.type = 'search';
    this.search.placeholder = 'Filter by names, words or numbers';
    this.search.setAttribute('aria-label', 'Filter: all words are wanted');
    this.search.oninput = () => this.restart();
    if (this.rows.length > SMALL) this.tools.append(this.search, this.makeChoice());
    const names = this.home.dataset.marks ? this.home.dataset.marks.split('|') : [];
    this.boxes = names.map(name => this.makeBox(name));
    this.chip = button('', 'Show all rows again', () => this.showOnly(null));
    this.chip.className = 'chip';
    this.where = node('span', null, 'where');
    this.where.setAttribute('aria-live', 'polite');
    this.back = button('Back', '', () => this.turn(-1));
    this.next = button('Next', '', () => this.turn(1));
    this.tools.append(this.chip, this.where);
    if (this.rows.length > PAGE) this.tools.append(this.back, this.next);
    this.told = node('p', null, 'told');
    this.home.prepend(this.tools, this.told);
  }

  makeChoice() {
    this.select = node('select');
    const title = this.titles[this.choice];
    this.select.setAttribute('aria-label', title);
    this.select.append(new Option('any ' + title, ''));
    const values = [...new Set(this.rows.map(row => row.cells[this.choice].textContent))];
    values.sort((a, b) => this.compare(a, b, this.choice));
    for (const value of values) this.select.append(new Option(title + ' ' + value, value));
    this.select.onchange = () => this.restart();
    return this.select;
  }

  makeBox(name) {
    const label = node('label'), box = node('input');
    box.type = 'checkbox';
    box.onchange = () => this.restart();
    label.append(box, ' only ' + name);
    this.tools.append(label);
    return box;
  }

  makeHeads() {
    this.heads.forEach((cell, at) => cell.replaceChildren(button(this.titles[at], '', () => this.sortBy(at))));
  }

  restart() { this.page = 0; this.show(); }
  turn(step) { this.page += step; this.show(); }
  showOnly(name) { this.only = name; this.restart(); }

  sortBy(at) {
    this.down = this.order === at ? !this.down : 'down' in this.heads[at].dataset;
    this.order = at;
    this.sort();
    this.restart();
  }

  isNumber(at) { return this.heads[at].classList.contains('number'); }

  compare(a, b, at) {
    const key = text => this.isNumber(at) ? (text === '' ? -Infinity : Number(plain(text))) : text.toLowerCase();
    const x = key(a), y = key(b);
    return x < y ? -1 : x > y ? 1 : 0;
  }

  // A row's words, made once.
  words(row) {
    if (row.words === undefined) {
      const text = [...row.cells].map(cell => cell.textContent.toLowerCase()).join('\n');
      row.words = text + '\n' + plain(text);
    }
    return row.words;
  }

  isChosen(row, words) {
    if (this.only !== null && row.cells[0].textContent !== this.only) return false;
    if (this.select && this.select.value !== '' && row.cells[this.choice].textContent !== this.select.value) return false;
    if (!this.boxes.every((box, k) => !box.checked || row.classList.contains('m' + k))) return false;
    return words.every(word => this.words(row).includes(word));
  }

  chosen() {
    if (!this.tools) return this.rows;
    const words = this.search.value.toLowerCase().split(/\s+/).filter(word => word !== '');
    return this.rows.filter(row => this.isChosen(row, words));
  }

  sort() {
    const at = this.order, sign = this.down ? -1 : 1;
    const text = new Map(this.rows.map(row => [row, row.cells[at].textContent]));
    this.rows.sort((a, b) => sign * this.compare(text.get(a), text.get(b), at));
    this.body.append(...this.rows);
  }

  show() {
    const chosen = new Set(this.chosen()), count = chosen.size, pages = Math.max(1, Math.ceil(count / PAGE));
    this.page = Math.min(Math.max(this.page, 0), pages - 1);
    const first = this.page * PAGE, last = Math.min(first + PAGE, count);
    // Rows of other pages stay in the document: they are printed.
    let at = 0;
    for (const row of this.rows) {
      const isOut = !chosen.has(row), isOff = !isOut && (at < first || at >= last);
      if (!isOut) at += 1;
      if (row.classList.contains('out') !== isOut) row.classList.toggle('out');
      if (row.classList.contains('off') !== isOff) row.classList.toggle('off');
    }
    if (this.tools) this.tell(count, first, last, pages);
    this.heads.forEach((cell, at) => {
      cell.firstChild.textContent = this.titles[at] + (at === this.order ? (this.down ? ' \u25be' : ' \u25b4') : '');
      cell.setAttribute('aria-sort', at !== this.order ? 'none' : this.down ? 'descending' : 'ascending');
    });
  }

  tell(count, first, last, pages) {
    const all = this.rows.length, digits = number => number.toLocaleString('en-US');
    const of = digits(count) + (count < all ? ' (of ' + digits(all) + ')' : '');
    this.where.textContent = count ? digits(first + 1) + ' to ' + digits(last) + ' of ' + of : 'none of ' + digits(all);
    this.back.disabled = this.page === 0;
    this.next.disabled = this.page === pages - 1;
    this.chip.hidden = this.only === null;
    this.chip.textContent = 'only ' + this.only + ' \u00d7';
    this.told.textContent = count < all ? digits(count) + ' of ' + digits(all) + ' rows, as they were chosen' : '';
  }
}

// A picture that fits its frame at first, and is zoomed and dragged then.
class Picture {
  constructor(frame, tables) {
    this.frame = frame;
    this.svg = frame.querySelector('svg');
    const box = this.svg.viewBox.baseVal;
    this.drawn = {x: box.x, y: box.y, width: box.width, height: box.height};
    this.table = tables.get(frame.dataset.table);
    this.pointers = new Map();
    this.frame.tabIndex = 0;
    this.frame.classList.add('moves');
    this.frame.setAttribute('role', 'group');
    this.frame.setAttribute('aria-label', 'The pipeline; plus and minus zoom, the arrows move, 0 shows all');
    const tools = node('div', null, 'zoom');
    tools.append(button('+', 'Nearer', () => this.zoom(1.5)), button('\u2212', 'Farther', () => this.zoom(1 / 1.5)),
      button('All', 'Show all', () => this.fit()));
    this.frame.before(tools);
    this.listen();
    this.fit();
  }

  // The frame has the picture's own form, within what a window can show.
  fit() {
    const width = this.frame.clientWidth, most = Math.max(220, 0.72 * window.innerHeight);
    if (!width) return;
    const scale = Math.min(width / this.drawn.width, 1.3, most / this.drawn.height);
    const height = Math.max(Math.round(this.drawn.height * scale), Math.min(220, Math.round(this.drawn.height * 1.3)));
    this.svg.style.width = width + 'px';
    this.svg.style.height = height + 'px';
    this.scale = scale;
    this.least = scale;
    this.x = this.drawn.x + this.drawn.width / 2;
    this.y = this.drawn.y + this.drawn.height / 2;
    this.draw();
  }

  // The middle stays within the picture.
  draw() {
    const width = this.svg.clientWidth / this.scale, height = this.svg.clientHeight / this.scale, all = this.drawn;
    const within = (at, low, size, seen) => seen >= size ? low + size / 2
      : Math.min(Math.max(at, low + seen / 2), low + size - seen / 2);
    this.x = within(this.x, all.x, all.width, width);
    this.y = within(this.y, all.y, all.height, height);
    this.svg.setAttribute('viewBox', [this.x - width / 2, this.y - height / 2, width, height].join(' '));
    this.frame.classList.toggle('zoomed', this.scale > this.least * 1.01);
  }

  // All of the picture, as it was drawn: it is printed so.
  whole() {
    const all = this.drawn;
    this.svg.setAttribute('viewBox', [all.x, all.y, all.width, all.height].join(' '));
  }

  zoom(by) {
    this.scale = Math.min(Math.max(this.scale * by, this.least), Math.max(4, this.least));
    this.draw();
  }

  move(dx, dy) {
    this.x -= dx / this.scale;
    this.y -= dy / this.scale;
    this.draw();
  }

  listen() {
    this.frame.addEventListener('wheel', event => {
      if (!event.ctrlKey) return;
      event.preventDefault();
      this.zoom(event.deltaY < 0 ? 1.2 : 1 / 1.2);
    }, {passive: false});
    this.frame.addEventListener('pointerdown', event => this.press(event));
    this.frame.addEventListener('pointermove', event => this.drag(event));
    for (const name of ['pointerup', 'pointercancel', 'pointerleave']) {
      this.frame.addEventListener(name, event => this.pointers.delete(event.pointerId));
    }
    this.frame.addEventListener('keydown', event => this.key(event));
    for (const part of this.svg.querySelectorAll('[data-name]')) this.listenTo(part);
  }

  listenTo(part) {
    const show = () => this.choose(part.getAttribute('data-name'));
    part.addEventListener('click', () => { if (!this.moved) show(); });
    if (part.classList.contains('label')) return;
    part.tabIndex = 0;
    part.setAttribute('role', 'button');
    part.setAttribute('aria-label', part.querySelector('title').textContent);
    part.addEventListener('keydown', event => { if (event.key === 'Enter') show(); });
  }

  press(event) {
    this.pointers.set(event.pointerId, {x: event.clientX, y: event.clientY});
    this.pressed = {x: event.clientX, y: event.clientY};
    this.moved = false;
  }

  apart() {
    const [one, other] = [...this.pointers.values()];
    return Math.hypot(one.x - other.x, one.y - other.y);
  }

  drag(event) {
    const last = this.pointers.get(event.pointerId);
    if (!last) return;
    const dx = event.clientX - last.x, dy = event.clientY - last.y, before = this.pointers.size === 2 ? this.apart() : 0;
    if (Math.hypot(event.clientX - this.pressed.x, event.clientY - this.pressed.y) > 4) this.moved = true;
    this.pointers.set(event.pointerId, {x: event.clientX, y: event.clientY});
    if (this.pointers.size === 2) this.zoom(this.apart() / Math.max(before, 1));
    else this.move(dx, dy);
  }

  key(event) {
    const moves = {ArrowLeft: [40, 0], ArrowRight: [-40, 0], ArrowUp: [0, 40], ArrowDown: [0, -40]}[event.key];
    if (event.key === '+' || event.key === '=') this.zoom(1.5);
    else if (event.key === '-') this.zoom(1 / 1.5);
    else if (event.key === '0') this.fit();
    else if (moves && this.frame.classList.contains('zoomed')) this.move(...moves);
    else return;
    event.preventDefault();
  }

  choose(name) {
    if (!this.table) return;
    this.table.showOnly(name);
    this.table.home.scrollIntoView({behavior: 'smooth', block: 'center'});
  }
}

const tables = new Map([...document.querySelectorAll('.table')].map(home => [home.id, new Table(home)]));
const pictures = [...document.querySelectorAll('.picture')].map(frame => new Picture(frame, tables));
window.addEventListener('beforeprint', () => pictures.forEach(picture => picture.whole()));
window.addEventListener('afterprint', () => pictures.forEach(picture => picture.draw()));
window.addEventListener('resize', () => pictures.forEach(picture => picture.fit()));
