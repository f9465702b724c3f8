// Runs before anything is painted: chooses the theme, which is the one that was chosen here, else that of the system.
{
  const dark = matchMedia('(prefers-color-scheme: dark)');
  const show = () => {
    let chosen = null;
    try {
      chosen = localStorage.getItem('wkt-theme');
    } catch {
      // The browser keeps nothing for this page.
    }
    document.documentElement.dataset.theme = chosen ?? (dark.matches ? 'dark' : 'light');
  };
  dark.addEventListener('change', show);
  show();
}
// Says what went wrong, also where the browser is too old to read the scripts below.
addEventListener('error', (event) => {
  if (event.message.startsWith('ResizeObserver')) return; // a word of the browser about a frame, and no error
  const started = document.documentElement.dataset.ready;
  document.getElementById('say').textContent = started ? 'Something went wrong in the page' : 'This browser can’t run the page';
  document.getElementById('why').textContent = `${started ? '' : 'It needs Chrome 92, Firefox 113, Safari 16.4 or later. '}${event.message}`;
});
