<?php
/* Symfony's MemcachedAdapter and Laravel's MemcachedStore with a LoggedIn, as Debian has them.

   usage: php check_php_frameworks.php symfony|laravel */
require __DIR__ . "/../LoggedIn.php";

use Illuminate\Cache\MemcachedConnector;
use Illuminate\Cache\MemcachedStore;
use Illuminate\Cache\Repository;
use Symfony\Component\Cache\Adapter\MemcachedAdapter;

function client(string $login): LoggedIn
{
    $client = new LoggedIn($login);
    $client->addServer("127.0.0.1", 21321);
    return $client;
}

/** One key and several at once, by Symfony; whether each was stored and read again. */
function symfony(string $login): callable
{
    $pool = new MemcachedAdapter(client($login), "app");
    return function () use ($pool) {
        foreach (["k" => "v", "long" => str_repeat("v", 1000)] as $key => $value) {
            $pool->saveDeferred($pool->getItem($key)->set($value)->expiresAfter(60));
        }
        $isStored = $pool->commit();
        $found = array_map(fn($it) => $it->get(), iterator_to_array($pool->getItems(["k", "long"])));
        return $isStored && $found === ["k" => "v", "long" => str_repeat("v", 1000)]
            && $pool->get("made", fn($item) => "made") === "made" && $pool->hasItem("made")
            && $pool->deleteItem("k") && !$pool->hasItem("k") && $pool->clear() && !$pool->hasItem("long");
    };
}

/** The same by Laravel, with a counter and a lock. */
function laravel(string $login): callable
{
    $connector = new class ($login) extends MemcachedConnector {
        public function __construct(private string $login) {}

        protected function createMemcachedInstance($connectionId)
        {
            return new LoggedIn($this->login, $connectionId);
        }
    };
    $server = ["host" => "127.0.0.1", "port" => 21321, "weight" => 100];
    $cache = new Repository($store = new MemcachedStore($connector->connect([$server]), "app"));
    return function () use ($cache, $store) {
        $items = ["k" => "v", "long" => str_repeat("v", 1000)];
        return $cache->putMany($items, 60) && $cache->many(array_keys($items)) === $items
            && $cache->put("n", 1, 60) && $cache->increment("n") === 2 && $cache->decrement("n", 2) === 0
            && $cache->add("once", 1, 60) && !$cache->add("once", 2, 60)
            && $store->lock("job", 60)->get() && !$store->lock("job", 60)->get()
            && $cache->forget("k") && $cache->get("k") === null && $cache->flush() && $cache->get("long") === null;
    };
}

/** How often it failed before it went well, and whether it did. */
function tries(string $when, callable $use): bool
{
    for ($n = 0; $n < 12; $n++) {
        if (@$use()) {
            echo "$when: $n tries before\n";
            return true;
        }
        usleep(300_000);
    }
    echo "$when: never\n";
    return false;
}

$framework = $argv[1];
require ["symfony" => "Symfony/Component/Cache/autoload.php", "laravel" => "Illuminate/Cache/autoload.php"][$framework];
$use = $framework("alice change-me-1");
$isGood = tries("first", $use);
shell_exec(__DIR__ . "/server bounce");
$isGood = tries("after a restart", $use) && $isGood;
shell_exec(__DIR__ . "/server cut");
$isGood = tries("after a cut", $use) && $isGood;
$isIn = @$framework("alice wrong")();
echo "a wrong token: ", json_encode($isIn), "\n";
exit($isGood && !$isIn ? 0 : 1);
