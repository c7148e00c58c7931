// ---- large texts: that something is loading is shown before the work begins

// Does some work at once; or where its text has as many letters as take long enough to be told, behind the word that
// tells of it, which then goes.
function worked(size, large, work) {
  const told = document.querySelector('#loading');
  const done = () => { try { work(); } finally { told.hidden = true; } };
  if (size < large) return done();
  told.hidden = false;
  return new Promise(then => setTimeout(() => then(done()), 30));
}
