// What libraries.py does, by node-redis: node node.js PORT. It ends by 1, and says why, at the first reply that isn't what its
// command means.
const assert = require('assert').strict;
const redis = require('redis');

const PIPELINE = 1000;
const ACCOUNTS = 8;
const BYTES = Buffer.from(Array.from({length: 255}, (_, byte) => byte));

async function main() {
    const client = redis.createClient({socket: {host: '127.0.0.1', port: Number(process.argv[2])}});
    await client.connect();
    assert.equal(await client.set('js:bytes', BYTES), 'OK');
    assert.deepEqual(await client.get(redis.commandOptions({returnBuffers: true}), 'js:bytes'), BYTES);
    assert.equal(await client.set('js:none', ''), 'OK');
    assert.deepEqual(await client.mGet(['js:none', 'js:absent']), ['', null]);
    assert.deepEqual([await client.setNX('js:once', '1'), await client.setNX('js:once', '2')], [true, false]);
    assert.equal(await client.rPush('js:list', ['a', 'b', 'c']), 3);
    assert.deepEqual(await client.lRange('js:list', 0, -1), ['a', 'b', 'c']);
    assert.equal(await client.hSet('js:hash', {f: '1', g: '2'}), 2);
    assert.deepEqual({...await client.hGetAll('js:hash')}, {f: '1', g: '2'});
    assert.deepEqual([await client.sAdd('js:left', ['x', 'y']), await client.sAdd('js:right', ['y', 'z'])], [2, 2]);
    assert.deepEqual(await client.sInter(['js:left', 'js:right']), ['y']);
    assert.equal(await client.sUnionStore('js:both', ['js:left', 'js:right']), 3);
    await assert.rejects(client.incr('js:list'), /^Error: WRONGTYPE /);
    // What is asked at once goes out at once: a pipeline.
    const counts = await Promise.all(Array.from({length: PIPELINE}, () => client.incr('js:count')));
    assert.deepEqual(counts, Array.from({length: PIPELINE}, (_, number) => number + 1));
    const numbers = Array.from({length: ACCOUNTS}, (_, number) => number);
    const accounts = numbers.map(number => `js:account:${number}`);
    const members = client.multi();
    numbers.forEach(number => members.incrBy(accounts[number], number));
    assert.deepEqual(await members.mGet(accounts).exec(), [...numbers, numbers.map(String)]);
    assert.equal(await client.del(accounts), ACCOUNTS);
    await client.disconnect();
}

main().catch(fault => {
    console.error(String(fault));
    process.exit(1);
});
