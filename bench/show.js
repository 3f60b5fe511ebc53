// Prints each packet of standard input as a line of JSON, by node's mqtt-packet.
const { parser } = require('mqtt-packet');
const reader = parser({ protocolVersion: 5 });
reader.on('packet', (packet) => process.stdout.write(JSON.stringify(packet) + '\n'));
reader.on('error', (error) => { throw error; });
for (let piece; (piece = read()).length > 0;) reader.parse(piece);

function read() {
  const piece = Buffer.alloc(65536);
  return piece.subarray(0, require('fs').readSync(0, piece, 0, piece.length, null));
}
