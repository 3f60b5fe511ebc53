// mqtt.js at a broker on this machine: each QoS both ways, properties, a retained message, a will, a session that is kept, and
// subscription identifiers. Usage: broker_mqttjs.js PORT
'use strict'
const assert = require('assert')
const mqtt = require(process.env.MQTTJS || '/usr/share/nodejs/mqtt')

const port = Number(process.argv[2])
setTimeout(() => { console.log('no end in time'); process.exit(1) }, 30000)

// A client that is connected; its messages wait in a list.
function connect(name, more = {}) {
  const client = mqtt.connect({ host: '127.0.0.1', port, protocolVersion: 5, clientId: name, reconnectPeriod: 0, ...more })
  const came = [], waiting = []
  client.on('message', (topic, payload, packet) => {
    if (waiting.length) waiting.shift()(packet)
    else came.push(packet)
  })
  client.next = () => came.length ? Promise.resolve(came.shift()) : new Promise(done => waiting.push(done))
  client.says = (...words) => new Promise((done, fail) => client.publish(...words, error => error ? fail(error) : done()))
  client.asks = (topic, qos, properties = {}) => new Promise((done, fail) =>
    client.subscribe(topic, { qos, properties }, (error, granted) => error ? fail(error) : done(granted)))
  client.ends = () => new Promise(done => client.end(false, done))
  return new Promise((done, fail) => {
    client.on('error', fail)
    client.on('connect', connack => { client.present = connack.sessionPresent; done(client) })
  })
}

async function main() {
  const pub = await connect('js-pub')
  for (const granted of [0, 1, 2]) {
    const sub = await connect('js-sub')
    assert.strictEqual((await sub.asks(`js/${granted}/+`, granted))[0].qos, granted)
    for (const qos of [0, 1, 2]) {
      await pub.says(`js/${granted}/x`, `at ${qos}`, { qos, properties: { contentType: 'text', userProperties: { k: 'v' } } })
      const got = await sub.next()
      assert.deepStrictEqual([got.payload.toString(), got.qos, got.retain], [`at ${qos}`, Math.min(qos, granted), false])
      assert.deepStrictEqual([got.properties.contentType, { ...got.properties.userProperties }], ['text', { k: 'v' }])
    }
    await sub.ends()
  }

  await pub.says('js/kept', 'kept', { qos: 1, retain: true })
  const keeps = { properties: { sessionExpiryInterval: 100 } }
  let sub = await connect('js-sub', { clean: true, ...keeps })
  await sub.asks('js/kept', 2)
  assert((await sub.next()).retain)
  await sub.ends()
  for (let i = 0; i < 100; i++) await pub.says('js/kept', String(i), { qos: 1 + i % 2 })
  sub = await connect('js-sub', { clean: false })
  assert(sub.present)
  const came = []
  for (let i = 0; i < 100; i++) came.push(Number((await sub.next()).payload))
  // (mqtt.js hands a message of QoS 2 on at its release)
  assert.deepStrictEqual(came.sort((a, b) => a - b), Array.from({ length: 100 }, (_, i) => i))
  await pub.says('js/kept', '', { qos: 1, retain: true })
  assert.strictEqual((await sub.next()).payload.length, 0)

  await sub.asks('js/will', 1)
  const lost = await connect('js-will', { will: { topic: 'js/will', payload: 'gone', qos: 1 } })
  lost.stream.destroy()
  assert.strictEqual((await sub.next()).payload.toString(), 'gone')

  for (const subscriptionIdentifier of [1, 268435455]) {
    await sub.asks('js/known', 1, { subscriptionIdentifier })
    await pub.says('js/known', 'x', { qos: 1 })
    assert.strictEqual((await sub.next()).properties.subscriptionIdentifier, subscriptionIdentifier)
  }
  await sub.ends()
  await pub.ends()
  console.log('done')
  process.exit(0)
}

main().catch(error => { console.log(error); process.exit(1) })
