// What is asked of a page of `tape explain --html`, `tape statement --html` or `tape jam --html` in a browser. The
// page is in an element of its own here, with the facts of --json beside it; what is wrong is listed, a line each.

const wrong = [];
const facts = JSON.parse(document.getElementById('facts').textContent);
const number = text => Number(text.replace(/[^0-9.-]/g, ''));
// Names and dates stand where numbers stood alone: as the facts tell them, they are taken back.
const parts_of = fact => ['issue', 'account', 'from', 'to'].filter(field => fact[`${field}_name`]).map(field => [fact[`${field}_name`], fact[field]]);
const called = [...new Map(facts.flatMap(parts_of))].sort(([one], [other]) => other.length - one.length);
const numbered = words => called.reduce((words, [name, number]) => words.replaceAll(name, number), words.replace(/ \(\d{4}-\d\d-\d\d\)/g, ''));
const text = cell => numbered(cell.textContent.trim());

// The rules of a medium are put in force, or out of it; a page for paper is looked at as such.
const sheets = [...document.styleSheets].flatMap(sheet => [...sheet.cssRules]);
const force = (media, then) => sheets.filter(rule => rule.media && rule.media.mediaText.includes(media)).forEach(rule => (rule.media.mediaText = then));
const paper = 'paper' in document.getElementById('facts').dataset;
if (paper) {
  force('print', 'all');
  force('screen', 'not all');
}

// Nothing stands over the edge.
const edge = document.documentElement.clientWidth;
if (document.documentElement.scrollWidth > edge) wrong.push(`the page is ${document.documentElement.scrollWidth} wide`);
let elements = 0;
for (const element of document.body.querySelectorAll('*:not(script)')) {
  const box = element.getBoundingClientRect();
  if (box.width === 0 || box.height === 0) continue;
  elements += 1;
  if (box.right > edge + 0.5 || box.left < -0.5)
    wrong.push(`over the edge: <${element.tagName.toLowerCase()}> ${box.left} to ${box.right}: ${text(element).slice(0, 40)}`);
}
// Every text, with the head before it on a narrow screen, fits its box.
for (const box of document.body.querySelectorAll('td, th, li, p, h1, h2, h3, h4, .badge'))
  if (box.clientWidth > 0 && (box.scrollWidth > box.clientWidth + 1 || box.scrollHeight > box.clientHeight + 1))
    wrong.push(`over its box: <${box.tagName.toLowerCase()}> ${text(box).slice(0, 40)}`);
if (elements < 20) wrong.push(`only ${elements} elements are seen`);

// Every text can be read: a contrast of at least 4.5 with what it stands on. A sign is a part of a bar:
// of at least 3 with the paper, or with its border.
const colour = value => {
  const parts = (value.match(/[\d.]+/g) || []).map(Number);
  return { rgb: parts.slice(0, 3), alpha: parts.length > 3 ? parts[3] : 1 };
};
const light = ([r, g, b]) => {
  const part = value => (value / 255 <= 0.04045 ? value / 255 / 12.92 : ((value / 255 + 0.055) / 1.055) ** 2.4);
  return 0.2126 * part(r) + 0.7152 * part(g) + 0.0722 * part(b);
};
const contrast = (one, other) => {
  const [low, high] = [light(one), light(other)].sort((a, b) => a - b);
  return (high + 0.05) / (low + 0.05);
};
const ground = element => {
  for (let at = element; at; at = at.parentElement) {
    const style = getComputedStyle(at);
    if (style.backgroundImage !== 'none') return null;
    const behind = colour(style.backgroundColor);
    if (behind.alpha === 1) return behind.rgb;
    if (behind.alpha > 0) return null;
  }
  return [255, 255, 255];
};
const readable = () => {
  let texts = 0;
  const walk = document.createTreeWalker(document.body, NodeFilter.SHOW_TEXT);
  while (walk.nextNode()) {
    const element = walk.currentNode.parentElement;
    if (!walk.currentNode.textContent.trim() || element.closest('script')) continue;
    texts += 1;
    const behind = ground(element);
    const found = behind ? contrast(colour(getComputedStyle(element).color).rgb, behind) : 0;
    if (found < 4.5) wrong.push(`contrast ${found.toFixed(2)}: ${text(element).slice(0, 40)}`);
  }
  for (const part of document.querySelectorAll('.bar i')) {
    const found = contrast(colour(getComputedStyle(part).borderTopColor).rgb, ground(part.parentElement));
    if (found < 3) wrong.push(`a part of a bar has a contrast of ${found.toFixed(2)}: ${part.className}`);
  }
  return texts;
};
// A state shows without colour: each has a word of its own, and a border and pattern of its own.
const kind = facts.length ? facts[0].fact : '';
const wanted = { statement: 2, jam: 2 }[kind] || 4;
const states = new Set();
for (const sample of document.querySelectorAll('.legend li')) {
  const style = getComputedStyle(sample.querySelector('.bar i'));
  states.add([style.borderTopStyle, style.backgroundImage.replace(/rgb\([^)]*\)/g, ''), style.backgroundColor === getComputedStyle(document.body).backgroundColor].join());
}
if (states.size !== wanted) wrong.push(`${states.size} of ${wanted} states can be told apart without colour`);

// The numbers are those of the facts.
const parts = document.querySelectorAll('section.day');
const rows = (within, kind) => [...within.querySelectorAll(`table.${kind} > tbody > tr`)].map(row => [...row.children]);
const same = (what, found, wanted) => {
  const [one, other] = [found, wanted].map(list => list.map(item => JSON.stringify(item)).sort());
  if (JSON.stringify(one) !== JSON.stringify(other)) wrong.push(`${what}: the page has ${one.join(' ')}, the facts ${other.join(' ')}`);
  return wanted.length;
};
const items = cell => (cell.querySelector('li') ? [...cell.querySelectorAll('li')] : [cell]).map(text).filter(item => item);

// The units of the facts: account, lots, lots handed and failed, by day, issue and number.
const units = () => {
  const all = {};
  const at = (fact, unit) => all[`${fact.day} ${fact.issue} ${unit}`];
  const put = (fact, unit, account, lots) => (all[`${fact.day} ${fact.issue} ${unit}`] = { account, lots, handed: 0, state: 'open' });
  for (const fact of facts) {
    if (fact.fact === 'units')
      for (let unit = fact.first; unit <= fact.last; unit++) put(fact, unit, fact.account, fact.lots);
    if (fact.fact === 'rounds')
      for (let unit = fact.first; unit <= fact.last; unit++) put(fact, unit, fact.accounts[(unit - fact.first) % fact.accounts.length], 100000);
    if (fact.fact === 'handed')
      for (let unit = fact.first; unit <= fact.last; unit++) Object.assign(at(fact, unit), { handed: fact.lots, state: 'handed' });
    if (fact.fact === 'partly') Object.assign(at(fact, fact.unit), { handed: fact.lots, state: 'partly failed' });
    if (fact.fact === 'instruction' && fact.call === 'cutoff' && fact.refusal === 0)
      for (const name of Object.keys(all)) if (name.startsWith(`${fact.day} `) && all[name].state === 'open') all[name].state = 'failed';
  }
  // The cutoff's line comes before the unit that it hands in part.
  return all;
};
const of_page = () => {
  const all = {};
  for (const part of parts)
    for (const issue of part.querySelectorAll('section[data-issue]'))
      for (const [names, whose, lots, state] of rows(issue, 'order')) {
        const [first, last] = text(names).split('–').map(Number);
        const accounts = text(whose).replace(/, (one each in )?rounds? .*/, '').split(/, | and /).map(Number);
        const each = number(text(lots).replace(/^.*×/, ''));
        const count = text(lots).includes('×') ? parseInt(text(lots), 10) : 1;
        const word = text(state.querySelector('.badge'));
        const handed = word === 'handed' ? each : word === 'partly failed' ? number(text(state).match(/([\d,]+) handed/)[1]) : 0;
        if ((last === undefined ? 0 : last - first) + 1 !== count) wrong.push(`units ${text(names)} are not ${text(lots)}`);
        for (let unit = 0; unit < count; unit++)
          all[`${part.dataset.day} ${issue.dataset.issue} ${first + unit}`] = { account: accounts[unit % accounts.length], lots: each, handed, state: word };
      }
  return all;
};
// Who receives how many lots, of the words for units that were handed.
const received = item => {
  const one = item.match(/^units? [\d–]+ to account (\d+): (?:(\d+) × )?([\d,]+) lots?/);
  if (one) return [[Number(one[1]), Number(one[2] || 1) * number(one[3])]];
  const each = number(item.match(/([\d,]+) lots each: /)[1]);
  return [...item.matchAll(/(\d+) to account (\d+)/g)].map(([, count, to]) => [Number(to), Number(count) * each]);
};
// Lots by everything else, those that are alike together.
const summed = list => {
  const sums = new Map();
  for (const item of list) {
    const key = JSON.stringify(item.slice(0, -1));
    sums.set(key, (sums.get(key) || 0) + item.at(-1));
  }
  return [...sums].map(([key, lots]) => [...JSON.parse(key), lots]);
};
const numbers = () => {
  let compared = same('units', Object.entries(of_page()), Object.entries(units()));
  const handed = [], fails = [], met = [], charges = [], delivered = [];
  for (const part of parts) {
    const day = Number(part.dataset.day);
    for (const of of part.querySelectorAll('section[data-issue]')) {
      const issue = Number(of.dataset.issue);
      for (const [when, account, lots, given, , owes] of rows(of, 'handed-over')) {
        const word = Number(text(when).match(/word (\d+)/)[1]);
        if (text(lots)) delivered.push([day, issue, number(text(account)), number(text(lots)), number(text(owes))]);
        for (const item of items(given))
          for (const [to, lots] of received(item)) handed.push([day, issue, word, to, lots]);
      }
      for (const [from, to, lots, face, of_what] of rows(of, 'fails')) {
        if (number(text(face)) !== number(text(lots)) * 50000) wrong.push(`face of ${text(lots)} lots: ${text(face)}`);
        if (!text(of_what).startsWith('the pair-off')) fails.push([day, issue, number(text(from)), number(text(to)), number(text(lots))]);
      }
      for (const [, what, came] of rows(of, 'later'))
        if (text(what).startsWith('resolve'))
          for (const item of items(came)) met.push([day, issue, Number(item.match(/to account (\d+)/)[1]), number(item.match(/^([\d,]+) lots?/)[1])]);
    }
    for (const cells of rows(part, 'charges')) charges.push([day, ...cells.map(cell => number(text(cell)))]);
  }
  const of_facts = (name, pick) => facts.filter(fact => fact.fact === name).map(pick);
  const still = (fact, at) => facts.slice(at).find(next => next.fact === 'owes' && next.word === fact.word).lots;
  const deliveries = facts.flatMap((fact, at) =>
    fact.fact === 'instruction' && fact.call === 'deliver' && fact.refusal === 0 ? [[fact.day, fact.issue, fact.account, fact.lots, still(fact, at)]] : []);
  compared += same('deliveries', delivered, deliveries);
  compared += same('handed', summed(handed), summed([
    ...of_facts('handed', f => [f.day, f.issue, f.word, f.account, (f.last - f.first + 1) * f.lots]),
    ...of_facts('partly', f => [f.day, f.issue, f.word, f.account, f.lots]),
  ]));
  compared += same('fails', fails, of_facts('fails', f => [f.day, f.issue, f.from, f.to, f.lots]));
  compared += same('resolved', met, of_facts('resolved', f => [f.day, f.issue, f.to, f.lots]));
  compared += same('charges', charges, of_facts('charge', f => [f.day, f.issue, f.from, f.to, f.lots, f.price / 1000, f.accrued / 1000, f.value, f.yen]));
  const ledger = rows(document, 'ledger').map(([issue, from, to, lots, , since]) => [issue, from, to, lots, since].map(cell => number(text(cell))));
  compared += same('ledger', ledger, of_facts('entry', f => [f.issue, f.from, f.to, f.lots, f.since]));
  compared += same('charged', rows(document, 'charged').map(cells => cells.map(cell => number(text(cell)))), of_facts('charged', f => [f.account, f.yen]));
  return compared;
};

// An account's record, by day and issue, from the facts of all accounts.
const record = account => {
  const receives = {}, delivers = {};
  const of = (all, fact) => (all[`${fact.day} ${fact.issue}`] ||= { due: 0, came: 0, failed: 0, resolved: 0, paired: 0, open: 0, yen: 0 });
  for (const [name, unit] of Object.entries(units())) {
    const [day, issue] = name.split(' ').map(Number);
    if (unit.account !== account) continue;
    of(receives, { day, issue }).due += unit.lots;
    of(receives, { day, issue }).came += unit.handed;
  }
  const either = (fact, then) => {
    if (fact.to === account) then(of(receives, fact), fact);
    if (fact.from === account) then(of(delivers, fact), fact);
  };
  let closing = null;
  for (const fact of facts) {
    if (fact.fact === 'instruction' && fact.refusal === 0) closing = fact.call === 'close';
    if (fact.fact === 'owes' && closing && fact.account === account) of(delivers, fact).due = fact.lots;
    if (fact.fact === 'instruction' && fact.call === 'deliver' && fact.refusal === 0 && fact.account === account) of(delivers, fact).came += fact.lots;
    if (fact.fact === 'fails') either(fact, (row, { lots }) => (row.failed += lots));
    if (fact.fact === 'resolved') either(fact, (row, { lots }) => (row.resolved += lots));
    if (fact.fact === 'charge') either(fact, (row, { lots, yen }) => ((row.open += lots), (row.yen += yen)));
    if (fact.fact === 'entry') either(fact, (row, { lots }) => (row.open += lots));
  }
  return [receives, delivers];
};
const account = kind =>
  rows(document, kind).map(cells => {
    const [day, issue, due, came, failed, resolved, , open, yen] = cells.map(cell => number(text(cell.firstChild)));
    return [day, issue, due, came, failed, resolved, open, yen];
  });
const told = () => {
  const whose = Number(text(document.querySelector('h1')).match(/^Account (\d+)/)[1]);
  const [receives, delivers] = record(whose).map(all =>
    Object.entries(all).map(([name, { due, came, failed, resolved, open, yen }]) => [...name.split(' ').map(Number), due, came, failed, resolved, open, yen]));
  return same('to receive', account('receives'), receives.filter(row => row.slice(2).some(lots => lots))) +
    same('to deliver', account('delivers'), delivers.filter(row => row.slice(2).some(lots => lots)));
};

// The rows of statements and of unit sizes: numbers, and behind them a bar of the lots in each state.
const table = (pick, drawn) => {
  const found = rows(document, kind === 'jam' ? 'sizes' : 'statement');
  found.forEach((cells, at) => {
    const [all, states] = drawn(facts[at]);
    for (const [state, lots] of Object.entries(states)) {
      const part = cells.at(-1).querySelector(`.bar i.${state}`);
      const width = part ? parseFloat(part.style.width) : 0;
      if (Math.abs(width - (lots * 100) / (all || 1)) > 0.006) wrong.push(`a bar of row ${at}: ${state} is ${width} of a hundred`);
    }
  });
  return same('rows', found.map(cells => cells.slice(0, -1).flatMap(cell => text(cell).split(' / ').map(number))), facts.map(pick));
};
const statements = () =>
  table(f => [f.issue, f.account, f.due, f.delivered, f.failed, f.resolved, ...f.failedOverDue], f => [f.due, { handed: f.delivered, failed: f.failed }]);
const sizes = () => table(f => [f.size, f.rounds, f.deliveries, f.stillOwed], f => [f.owed, { handed: f.owed - f.stillOwed, open: f.stillOwed }]);

let compared = 0;
try {
  const of_account = text(document.querySelector('h1')).startsWith('Account');
  compared = ({ statement: statements, jam: sizes }[kind] || (of_account ? told : numbers))();
} catch (error) {
  wrong.push(`${error}`);
}
const day = readable();
// The same in the dark, and in the colours of paper.
if (!paper) force('prefers-color-scheme: dark', 'all');
const dark = readable();
const white = getComputedStyle(document.body).backgroundColor === 'rgb(255, 255, 255)';
if (white !== paper) wrong.push(paper ? 'paper is not white' : 'there is no dark page');
force('print', 'all');
readable();
document.body.innerHTML = '';
const result = document.createElement('pre');
result.id = 'result';
result.textContent = ['checked', edge, elements, day, dark, compared, ...wrong].join('\n') + '\nend';
document.body.append(result);
