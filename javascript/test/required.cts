// The same by require.
import wkt = require('wkt-proved');
import inline = require('wkt-proved/inline');

export const key = async (): Promise<string> => (await wkt.load()).canonical('POINT(1 2)') + (await inline.load()).canonical('POINT(1 2)');
