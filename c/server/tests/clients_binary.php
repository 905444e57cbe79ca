<?php
// php-memcached's calls (Debian: php-memcached) by the binary protocol, and sessions. Status 1: an answer was another one; 3: it isn't there.
if (!class_exists('Memcached')) exit(3);
$wrong = 0;
function same($what, $got, $wanted) {
    global $wrong;
    if ($got === $wanted) return;
    $wrong = 1;
    echo "$what: ", var_export($got, true), ", not ", var_export($wanted, true), "\n";
}
$port = (int) $argv[1];
$client = new Memcached();
$client->setOption(Memcached::OPT_BINARY_PROTOCOL, true);
$client->addServer('127.0.0.1', $port);
same('flush', $client->flush(), true);
same('set', $client->set('a', 'one'), true);
same('get', $client->get('a'), 'one');
same('get of nothing', $client->get('nothing'), false);
same('its result', $client->getResultCode(), Memcached::RES_NOTFOUND);
same('add', $client->add('a', 'two'), false);
same('replace of nothing', $client->replace('nothing', 'x'), false);
$client->setOption(Memcached::OPT_COMPRESSION, false);
same('set', $client->set('s', 'b'), true);
same('append', $client->append('s', 'c'), true);
same('prepend', $client->prepend('s', 'a'), true);
same('get behind them', $client->get('s'), 'abc');
$got = $client->get('a', null, Memcached::GET_EXTENDED);
same('cas', $client->cas($got['cas'], 'a', 'three'), true);
same('cas again', $client->cas($got['cas'], 'a', 'four'), false);
same('increment with a first number', $client->increment('n', 5, 100, 0), 100);
same('increment', $client->increment('n', 5), 105);
same('decrement', $client->decrement('n', 200), 0);
same('touch', $client->touch('n', 100), true);
same('setMulti', $client->setMulti(['x' => 1, 'y' => [2], 'z' => 3.5]), true);
same('getMulti', $client->getMulti(['x', 'y', 'z', 'none']), ['x' => 1, 'y' => [2], 'z' => 3.5]);
same('deleteMulti', $client->deleteMulti(['x', 'none']), ['x' => true, 'none' => Memcached::RES_NOTFOUND]);
same('delete', $client->delete('a'), true);
same('version', array_values($client->getVersion()), ['1.6.18']);
same('stats', (int) array_values($client->getStats())[0]['threads'] > 0, true);
// Sessions are kept by the binary protocol unless php.ini says otherwise.
ini_set('session.save_handler', 'memcached');
ini_set('session.save_path', "127.0.0.1:$port");
ini_set('session.use_cookies', '0');
ini_set('session.cache_limiter', '');
same('a session begins', session_start(), true);
$_SESSION['who'] = 'me';
$id = session_id();
session_write_close();
$_SESSION = [];
session_id($id);
session_start();
same('a session goes on', $_SESSION['who'] ?? null, 'me');
same('a session ends', session_destroy(), true);
if (!$wrong) echo "all right\n";
exit($wrong);
