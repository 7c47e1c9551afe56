<?php
/* Whether a LoggedIn is a \Memcached in each call that it takes over. On a connection that has not logged in, behind a
   cut and behind a restart a call gives what it gives to a \Memcached that logged in by hand, and leaves the same. */
require __DIR__ . "/../LoggedIn.php";

const LOGIN = "alice change-me-1";
const KEYS = ["k", "j", "m", "n"];
const ANSWERS = [Memcached::RES_SUCCESS, Memcached::RES_NOTFOUND, Memcached::RES_NOTSTORED, Memcached::RES_DATA_EXISTS,
                 Memcached::RES_CLIENT_ERROR, Memcached::RES_E2BIG];

function connected(Memcached $client): Memcached
{
    $client->setOption(Memcached::OPT_COMPRESSION, false); // which `append` asks for
    $client->addServer("127.0.0.1", 21321);
    return $client;
}

/** A \Memcached that logged in by hand and stored three items. */
function prepared(): Memcached
{
    $plain = connected(new Memcached());
    $plain->set("login", LOGIN, 1);
    $plain->flush();
    $plain->setMulti(["k" => "1", "j" => "22", "t" => "abc"]);
    return $plain;
}

/** What a look-up with a callback gives, and how often that was called. */
function filled(Memcached $c, string $call, string ...$keys): array
{
    $count = 0;
    $fill = function ($memcached, $key, &$value) use (&$count) {
        $count++;
        $value = "filled";
        return true;
    };
    return [$c->$call(...$keys, cache_cb: $fill), $count];
}

$long = str_repeat("v", 1000);
$cases = [
    "get" => fn($c) => $c->get("k"),
    "get, named" => fn($c) => $c->get(key: "k", get_flags: 0),
    "get, a miss" => fn($c) => $c->get("m"),
    "get, a miss filled" => fn($c) => filled($c, "get", "m"),
    "getByKey" => fn($c) => $c->getByKey("s", "k"),
    "getByKey, a miss filled" => fn($c) => filled($c, "getByKey", "s", "m"),
    "getMulti" => fn($c) => $c->getMulti(KEYS),
    "getMulti, ordered" => fn($c) => $c->getMulti(KEYS, Memcached::GET_PRESERVE_ORDER),
    "getMultiByKey" => fn($c) => $c->getMultiByKey("s", KEYS),
    "getDelayed" => fn($c) => $c->getDelayed(KEYS) ? $c->fetchAll() : false,
    "getDelayedByKey" => fn($c) => $c->getDelayedByKey("s", KEYS) ? $c->fetchAll() : false,
    "set" => fn($c) => $c->set("k", ["an", "array"]),
    "set, named" => fn($c) => $c->set(value: "v", key: "k"),
    "set, long" => fn($c) => $c->set("k", $long),
    "set, too long" => fn($c) => $c->set("k", str_repeat("v", 1_048_577)),
    "setByKey" => fn($c) => $c->setByKey("s", "k", $long),
    "setMulti" => fn($c) => $c->setMulti(["k" => "2", "m" => $long]),
    "setMultiByKey" => fn($c) => $c->setMultiByKey("s", ["k" => "2", "m" => $long]),
    "touch" => fn($c) => $c->touch("k", -1),
    "touch, a miss" => fn($c) => $c->touch("m", 100),
    "touchByKey" => fn($c) => $c->touchByKey("s", "k", -1),
    "cas" => fn($c, $token) => $c->cas($token, "k", "v"),
    "cas, long" => fn($c, $token) => $c->cas($token, "k", $long),
    "cas, changed since" => fn($c, $token) => $c->cas("1" . $token, "k", "v"),
    "casByKey" => fn($c, $token) => $c->casByKey($token, "s", "k", "v"),
    "add" => fn($c) => $c->add("m", "v"),
    "add, held" => fn($c) => $c->add("k", $long),
    "addByKey" => fn($c) => $c->addByKey("s", "m", "v"),
    "append" => fn($c) => $c->append("k", "v"),
    "appendByKey" => fn($c) => $c->appendByKey("s", "k", "v"),
    "prepend" => fn($c) => $c->prepend("k", $long),
    "prependByKey" => fn($c) => $c->prependByKey("s", "k", "v"),
    "replace" => fn($c) => $c->replace("k", "v"),
    "replace, a miss" => fn($c) => $c->replace("m", $long),
    "replaceByKey" => fn($c) => $c->replaceByKey("s", "k", "v"),
    "delete" => fn($c) => $c->delete("k"),
    "delete, a miss" => fn($c) => $c->delete("m"),
    "deleteByKey" => fn($c) => $c->deleteByKey("s", "k"),
    "deleteMulti" => fn($c) => $c->deleteMulti(["k", "m"]),
    "deleteMultiByKey" => fn($c) => $c->deleteMultiByKey("s", ["k", "m"]),
    "increment" => fn($c) => $c->increment("k", 5),
    "increment, a miss" => fn($c) => $c->increment("m"),
    "increment, no number" => fn($c) => $c->increment("t"),
    "incrementByKey" => fn($c) => $c->incrementByKey("s", "k"),
    "decrement" => fn($c) => $c->decrement("j", 3),
    "decrementByKey" => fn($c) => $c->decrementByKey("s", "j"),
    "getStats" => fn($c) => array_keys($c->getStats() ?: []),
    "getVersion" => fn($c) => $c->getVersion(),
    "flush" => fn($c) => $c->flush(),
];
$disturbances = [
    "not logged in" => fn($client) => $client->quit(),
    "behind a cut" => fn() => shell_exec(__DIR__ . "/server cut"),
    "behind a restart" => fn() => shell_exec(__DIR__ . "/server bounce"),
];

/** What the call gives, and what is stored behind it. */
function outcome(callable $case, Memcached $client, Memcached $plain): array
{
    $token = (string) $plain->get("k", null, Memcached::GET_EXTENDED)["cas"];
    $result = $case($client, $token);
    return [$result, $client->getResultCode(), $plain->getMulti(KEYS)];
}

/** Whether the server answered each key of a call: of one that goes key by key the code is the last key's. */
function isAnswered(string $name, mixed $result, int $code): bool
{
    return match ($name) {
        "setMulti" => $result,
        "deleteMulti" => !array_diff(array_filter($result, "is_int"), ANSWERS),
        default => in_array($code, ANSWERS),
    };
}

/** The outcome of the first try that was answered, and how many were not. */
function answered(string $name, callable $case, Memcached $client): array
{
    $lost = -1;
    do {
        usleep(300_000 * ++$lost);
        $outcome = outcome($case, $client, prepared());
    } while ($lost < 6 && !isAnswered($name, $outcome[0], $outcome[1]));
    return [$outcome, $lost];
}

$wrong = 0;
foreach ($disturbances as $when => $disturb) {
    [$tried, $most] = [0, 0];
    foreach ($cases as $name => $case) {
        if ($when === "behind a restart" && preg_match("/ByKey|,/", $name)) {
            continue; // restarts take long
        }
        $tried++;
        $wanted = outcome($case, $plain = prepared(), $plain);
        $client = connected(new LoggedIn(LOGIN));
        $client->get("k");
        $disturb($client);
        [$found, $lost] = answered($name, $case, $client);
        $most = max($most, $lost);
        if ($found !== $wanted || $lost > 1) {
            $wrong++;
            echo "WRONG: $when, $name: ", substr(json_encode($found), 0, 200), " in place of ",
                substr(json_encode($wanted), 0, 200), ", $lost tries lost\n";
        }
    }
    echo "$when: $tried calls, at most $most tries lost\n";
}

$class = new ReflectionClass(LoggedIn::class);
$own = array_filter($class->getMethods(ReflectionMethod::IS_PUBLIC), fn($it) => $it->class === LoggedIn::class);
$untried = array_diff(array_map(fn($it) => $it->name, $own), array_map(fn($it) => strtok($it, ","), array_keys($cases)), ["__construct"]);
echo "not tried: ", json_encode(array_values($untried)), "; a Memcached: ", json_encode(new LoggedIn(LOGIN) instanceof Memcached), "\n";
exit($wrong || $untried ? 1 : 0);
