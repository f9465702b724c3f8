// The package by its name, as an ES module. The gate runs it where the package is installed.
import { load } from 'wkt-proved';
import { WktError, load as inline } from 'wkt-proved/inline';

const keys = [await load(), await inline()].map((wkt) => wkt.canonical('point ( 1 2.50 )'));
if (typeof WktError !== 'function') throw new Error('no WktError');
console.log(...keys);
