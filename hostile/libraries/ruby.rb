# What libraries.py does, by ruby-redis: ruby ruby.rb PORT. It ends by 1, and says why, at the first reply that isn't what its
# command means.
require 'redis'

PIPELINE = 1000
ACCOUNTS = 8
BYTES = (0...255).to_a.pack('C*')

def same(what, came, wanted)
  abort "#{what}: #{came.inspect} came, and #{wanted.inspect} was wanted" unless came == wanted
end

redis = Redis.new(port: ARGV[0].to_i)
same 'SET', redis.set('rb:bytes', BYTES), 'OK'
same 'GET', redis.get('rb:bytes').b, BYTES
same 'SET of no byte', redis.set('rb:none', ''), 'OK'
same 'MGET', redis.mget('rb:none', 'rb:absent'), ['', nil]
same 'SETNX', [redis.setnx('rb:once', '1'), redis.setnx('rb:once', '2')], [true, false]
same 'RPUSH', redis.rpush('rb:list', %w[a b c]), 3
same 'LRANGE', redis.lrange('rb:list', 0, -1), %w[a b c]
same 'HSET', redis.hset('rb:hash', 'f', '1', 'g', '2'), 2
same 'HGETALL', redis.hgetall('rb:hash'), { 'f' => '1', 'g' => '2' }
same 'SADD', [redis.call('SADD', 'rb:left', 'x', 'y'), redis.call('SADD', 'rb:right', 'y', 'z')], [2, 2]
same 'SINTER', redis.sinter('rb:left', 'rb:right'), ['y']
same 'SUNIONSTORE', redis.sunionstore('rb:both', 'rb:left', 'rb:right'), 3

begin
  abort "INCR of a list gave #{redis.incr('rb:list')}"
rescue Redis::CommandError => e
  same 'the error', e.message[0, 9], 'WRONGTYPE'
end

pipeline = redis.pipelined { |requests| PIPELINE.times { requests.incr('rb:count') } }
same 'a pipeline', pipeline, (1..PIPELINE).to_a

accounts = (0...ACCOUNTS).map { |number| "rb:account:#{number}" }
transaction = redis.multi do |members|
  accounts.each_with_index { |account, number| members.incrby(account, number) }
  members.mget(*accounts)
end
same 'a transaction', transaction, [*0...ACCOUNTS, (0...ACCOUNTS).map(&:to_s)]
same 'DEL', redis.del(*accounts), ACCOUNTS
redis.close
