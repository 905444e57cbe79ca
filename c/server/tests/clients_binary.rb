# Dalli's calls (Debian: ruby-dalli) by the binary protocol. Status 1: an answer was another one; 3: it isn't there.
begin
  require 'dalli'
rescue LoadError
  exit 3
end
$wrong = 0
def same(what, got, wanted)
  return if got == wanted
  $wrong = 1
  puts "#{what}: #{got.inspect}, not #{wanted.inspect}"
end
client = Dalli::Client.new("127.0.0.1:#{ARGV[0]}", protocol: :binary)
client.flush_all
same('set', client.set('a', 'one').is_a?(Integer), true)
same('get', client.get('a'), 'one')
same('get of nothing', client.get('nothing'), nil)
same('add', client.add('a', 'two'), false)
same('replace of nothing', client.replace('nothing', 'x'), 0)
client.set('s', 'b', 0, raw: true)
same('append', client.append('s', 'c'), true)
same('prepend', client.prepend('s', 'a'), true)
same('get behind them', client.get('s', raw: true), 'abc')
same('cas', client.cas('a') { |value| value + 'more' }.is_a?(Integer), true)
same('get behind it', client.get('a'), 'onemore')
same('incr with a first number', client.incr('n', 5, 0, 100), 100)
same('incr', client.incr('n', 5), 105)
same('decr', client.decr('n', 200), 0)
same('touch', client.touch('a', 100), true)
same('gat', client.gat('a', 100), 'onemore')
client.multi { 200.times { |i| client.set("m#{i}", i) } }
same('get_multi', client.get_multi((0...210).map { |i| "m#{i}" }).length, 200)
same('a large value', [client.set('big', 'x' * 900_000, 0, raw: true).is_a?(Integer), client.get('big', raw: true).length], [true, 900_000])
same('delete', client.delete('a'), true)
same('delete of nothing', client.delete('a'), nil)
same('version', client.version.values, ['1.6.18'])
same('stats', client.stats.values[0]['threads'].to_i.positive?, true)
puts 'all right' if $wrong.zero?
exit $wrong
