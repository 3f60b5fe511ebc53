// What node's mqtt-packet takes to read and to write a Publish and a PubAck: nanoseconds of the processor, the middle of five.
const { parser, generate } = require('mqtt-packet');
const count = 200000, batch = 1000, version = { protocolVersion: 5 };
const topic = Buffer.from('sensors/kitchen/temperature'), payload = Buffer.alloc(16, 'x');

const bytesOf = (id) => Buffer.from([id >> 8, id & 255]);
function publishFrame(id) {
  const body = Buffer.concat([Buffer.from([0, topic.length]), topic, bytesOf(id), Buffer.from([0]), payload]);
  return Buffer.concat([Buffer.from([0x32, body.length]), body]);
}
const ackFrame = (id) => Buffer.concat([Buffer.from([0x40, 2]), bytesOf(id)]);
const streamOf = (frame) => Buffer.concat(Array.from({ length: batch }, (_, at) => frame(at + 1)));

function reads(stream) {
  let sum = 0;
  for (let round = 0; round < count / batch; round++) {
    const reader = parser(version);
    reader.on('packet', (packet) => { sum += packet.messageId; });
    reader.parse(stream);
  }
  if (sum !== (count / batch) * ((batch * (batch + 1)) / 2)) throw new Error('not all was read');
}
function writes(packet) {
  for (let at = 0; at < count; at++) generate(packet, version);
}
function middle(work) {
  const times = [];
  work();
  for (let at = 0; at < 5; at++) {
    const { user, system } = process.cpuUsage();
    work();
    const spent = process.cpuUsage({ user, system });
    times.push(((spent.user + spent.system) * 1000) / count);
  }
  return Math.round(times.sort((a, b) => a - b)[2]);
}

const publish = { cmd: 'publish', retain: false, qos: 1, dup: false, topic: topic.toString(), payload, messageId: 1, properties: {} };
const ack = { cmd: 'puback', messageId: 1, reasonCode: 0 };
const [frames, acks] = [streamOf(publishFrame), streamOf(ackFrame)];
console.log([() => reads(frames), () => reads(acks), () => writes(publish), () => writes(ack)].map(middle).join(' '));
