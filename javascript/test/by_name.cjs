// The same by require.
const { WktError, load } = require('wkt-proved');
const inline = require('wkt-proved/inline');

Promise.all([load(), inline.load()]).then((both) => {
  if (typeof WktError !== 'function') throw new Error('no WktError');
  console.log(...both.map((wkt) => wkt.canonical('point ( 1 2.50 )')));
});
