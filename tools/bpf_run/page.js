// Marks the lines of the other side that belong to the line under the pointer or with the focus.
const lines = document.querySelectorAll('[data-line]');
function mark(line) {
  for (const other of lines) {
    other.classList.toggle('marked', line !== null && other !== line && other.dataset.line === line.dataset.line);
  }
}
for (const line of lines) {
  line.addEventListener('mouseenter', () => mark(line));
  line.addEventListener('mouseleave', () => mark(null));
  line.addEventListener('focus', () => {
    mark(line);
    const other = line.closest('.side').classList.contains('unit') ? '.source' : '.unit';
    const found = document.querySelector(`${other} .marked`);
    if (found) found.scrollIntoView({ block: 'nearest' });
  });
}
document.addEventListener('keydown', (event) => {
  const line = document.activeElement;
  if (!line || !line.matches('li[tabindex]') || !['ArrowDown', 'ArrowUp'].includes(event.key)) return;
  let next = line;
  do { next = event.key === 'ArrowDown' ? next.nextElementSibling : next.previousElementSibling; }
  while (next && !next.matches('[tabindex]'));
  if (next) { next.focus(); event.preventDefault(); }
});
