// Begins: with the film that is in the page, or by asking for one.

listen();
begin($('#film').textContent);

function begin(text) {
  if (!/^film /m.test(text)) return;
  try {
    open(text);
    if (location.hash.includes('test')) runTests();
  } catch (error) {
    document.title = 'FAIL ' + error.message;
    $('#dropsays').textContent = String(error.stack || error.message);
  }
}

// for the tests in viewer/test
window.ddmPage = {machine: () => machine, ui};
