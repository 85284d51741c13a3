// Shows the rows that have the word, opens the folds that have it (not where there are more than 400 rows), and says how many rows there are. Without a word all is as it was.
const box = document.getElementById('search'), count = document.getElementById('count');
const rows = [...document.querySelectorAll('main .row')].map(row => ({ row, text: row.textContent.toLowerCase() }));
const outside = query => [...document.querySelectorAll(query)].filter(part => !part.closest('.row'));
const holders = outside('main section, main table, main [id^=demand]'), headings = outside('main h3, main h4');
let opened = [];

function search() {
  const word = box.value.trim().toLowerCase();
  opened.forEach(fold => fold.open = false);
  opened = [];
  let found = 0;
  for (const { row, text } of rows) {
    row.hidden = !text.includes(word);
    found += !row.hidden;
  }
  headings.forEach(part => part.hidden = word !== '');
  holders.forEach(part => part.hidden = word !== '' && !part.querySelector('.row:not([hidden])'));
  if (word && found <= 400)
    for (const { row } of rows)
      if (!row.hidden)
        for (const fold of row.querySelectorAll('details:not([open])'))
          if (fold.textContent.toLowerCase().includes(word)) {
            fold.open = true;
            opened.push(fold);
          }
  count.textContent = !word ? '' : !found ? 'Nothing has this word.' : found + (found === 1 ? ' place has' : ' places have') + ' this word.';
}

let waiting;
box.addEventListener('input', () => { clearTimeout(waiting); waiting = setTimeout(search, 120); });
