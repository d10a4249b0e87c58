// The search box: it shows the rows that have every word that is typed, and says how many there are. And under each theorem a button
// that opens all that it leans on, or closes it.
(function () {
  const form = document.getElementById('search');
  const box = document.getElementById('find');
  const left = document.getElementById('left');
  const rows = Array.from(document.querySelectorAll('.row'));
  function narrow() {
    const words = box.value.toLowerCase().split(/\s+/).filter(Boolean);
    let shown = 0;
    for (const row of rows) {
      row.hidden = !words.every((word) => row.dataset.find.includes(word));
      shown += row.hidden ? 0 : 1;
    }
    for (const section of document.querySelectorAll('section.rows')) {
      section.hidden = !section.querySelector('.row:not([hidden])');
    }
    for (const aside of document.querySelectorAll('.aside, #contents')) {
      aside.hidden = words.length > 0;
    }
    left.textContent = words.length ? shown + ' of ' + rows.length + ' rows' : rows.length + ' rows';
  }
  form.hidden = false;
  form.addEventListener('submit', (event) => event.preventDefault());
  box.addEventListener('input', narrow);
  document.addEventListener('keydown', (event) => {
    if (event.key === '/' && document.activeElement !== box) {
      event.preventDefault();
      box.focus();
    }
    if (event.key === 'Escape' && document.activeElement === box) {
      box.value = '';
      narrow();
    }
  });
  narrow();
  for (const answer of document.querySelectorAll('.theorem .believe')) {
    const button = document.createElement('button');
    button.type = 'button';
    button.textContent = 'Open all';
    button.addEventListener('click', () => {
      const open = button.textContent === 'Open all';
      for (const one of answer.parentNode.querySelectorAll('.lean .lean')) {
        one.open = open;
      }
      button.textContent = open ? 'Close all' : 'Open all';
    });
    answer.append(' ', button);
  }
})();
