<?php
/* The recipes by php-memcached: lock.py, counter.py, limit.py and settings.py say what each does and why.

usage: php recipes.php lock NODES NAME SECONDS COMMAND ..
       php recipes.php counter NODES NAME [WRITER ADDS]
       php recipes.php limit NODES USER LIMIT SECONDS TRIES
       php recipes.php settings NODES NAME [FIELD VALUE]         NODES is HOST:PORT[,HOST:PORT ..]
*/

/** Asks the first of some nodes that answers, and asks again while a key is busy. */
class Store
{
    private array $nodes;
    private ?Memcached $client = null;

    public function __construct(string $nodes, private float $patience = 10.0)
    {
        $this->nodes = explode(',', $nodes);
    }

    private function client(): Memcached
    {
        if ($this->client === null) {
            [$host, $port] = explode(':', $this->nodes[0]);
            $this->client = new Memcached();
            $this->client->addServer($host, (int) $port);
            $this->client->setOption(Memcached::OPT_COMPRESSION, false);
            $this->client->setOption(Memcached::OPT_CONNECT_TIMEOUT, 1000);
            $this->client->setOption(Memcached::OPT_POLL_TIMEOUT, (int) ($this->patience * 1000));
        }
        return $this->client;
    }

    /** Goes on at the next node where the connection was lost. */
    private function leave(): void
    {
        $this->client = null;
        $this->nodes[] = array_shift($this->nodes);
    }

    /** Whether the last request was told that its key is busy: it has done nothing. */
    private function isBusy(): bool
    {
        return str_contains($this->client()->getLastErrorMessage(), 'SERVER ERROR, busy');
    }

    /** The value of a key and its tag, or nulls. A get of a busy key is `not found` by its result: only the last error tells the two apart. */
    public function read(string $key): array
    {
        for ($end = microtime(true) + $this->patience; microtime(true) < $end; usleep(5000)) {
            $held = $this->client()->get($key, null, Memcached::GET_EXTENDED);
            if ($held !== false) {
                return [(string) $held['value'], $held['cas']];
            }
            if ($this->client()->getLastErrorCode() === Memcached::RES_SUCCESS) {
                return [null, null];
            }
            if (!$this->isBusy()) {
                $this->leave();
            }
        }
        throw new RuntimeException("$key can't be read");
    }

    /** Makes an update: true where it was made, false where it was refused, null where that is not known. */
    public function change(callable $update): ?bool
    {
        for ($end = microtime(true) + $this->patience; microtime(true) < $end; usleep(5000)) {
            if ($update($this->client())) {
                return true;
            }
            if (in_array($this->client()->getResultCode(), [Memcached::RES_NOTSTORED, Memcached::RES_DATA_EXISTS, Memcached::RES_NOTFOUND])) {
                return false;
            }
            if ($this->isBusy()) {
                continue;
            }
            if ($this->client()->getResultCode() !== Memcached::RES_SERVER_ERROR) {
                $this->leave();
            }
            return null;
        }
        return null;
    }

    public function add(string $key, string $value): ?bool
    {
        return $this->change(fn ($client) => $client->add($key, $value));
    }

    public function set(string $key, string $value): ?bool
    {
        return $this->change(fn ($client) => $client->set($key, $value));
    }

    /** Writes over what was read: by its tag, or where nothing was there. */
    public function replace(string $key, $tag, string $value): ?bool
    {
        return $tag === null ? $this->add($key, $value) : $this->change(fn ($client) => $client->cas($tag, $key, $value));
    }
}

function take(Store $store, string $key, string $me, float $seconds): string
{
    [$seen, $since] = [null, microtime(true)];
    while (true) {
        [$holder, $tag] = $store->read($key);
        if ($holder === $me) {
            return (string) $tag;
        }
        if ($tag !== $seen) {
            [$seen, $since] = [$tag, microtime(true)];
        }
        if ($holder === null || $holder === '' || microtime(true) - $since > $seconds) {
            $store->replace($key, $tag, $me);
        } else {
            usleep(20000);
        }
    }
}

function lock(string $nodes, string $name, string $seconds, string ...$command): int
{
    [$store, $key] = [new Store($nodes), "lock:$name"];
    $tag = take($store, $key, bin2hex(random_bytes(16)), (float) $seconds);
    putenv("TOKEN=$tag");
    passthru(implode(' ', array_map('escapeshellarg', $command)), $status);
    while ((string) $store->read($key)[1] === $tag) {
        $store->replace($key, $tag, '');
    }
    return $status;
}

function enter(Store $store, string $name, string $writer): void
{
    while (true) {
        [$writers, $tag] = $store->read("writers:$name");
        $names = array_filter(explode(' ', $writers ?? ''), 'strlen');
        if (in_array($writer, $names)) {
            return;
        }
        $store->replace("writers:$name", $tag, implode(' ', [...$names, $writer]));
    }
}

function counter(string $nodes, string $name, ?string $writer = null, int $adds = 0): int
{
    $store = new Store($nodes);
    $part = fn ($of) => (int) $store->read("count:$name:$of")[0];
    if ($writer === null) {
        $writers = array_filter(explode(' ', $store->read("writers:$name")[0] ?? ''), 'strlen');
        echo array_sum(array_map($part, $writers)), "\n";
        return 0;
    }
    enter($store, $name, $writer);
    for ($total = $part($writer); $adds > 0; $adds--) {
        $total++;
        while ($part($writer) !== $total) {
            $store->set("count:$name:$writer", (string) $total);
        }
    }
    echo $total, "\n";
    return 0;
}

function isAllowed(Store $store, string $user, int $limit, float $seconds): bool
{
    while (true) {
        [$held, $tag] = $store->read("limit:$user");
        $now = intdiv((int) (microtime(true) * 1000), (int) ($seconds * 1000));
        [$window, $used] = $held === null ? [$now, 0] : array_map('intval', explode(' ', $held));
        if ($window < $now) {
            [$window, $used] = [$now, 0];
        }
        if ($used >= $limit) {
            return false;
        }
        $counted = $store->replace("limit:$user", $tag, $window . ' ' . ($used + 1));
        if ($counted !== false) {
            return $counted ?? false;
        }
    }
}

function limit(string $nodes, string $user, int $limit, float $seconds, int $tries): int
{
    $store = new Store($nodes);
    for ($allowed = 0; $tries > 0; $tries--) {
        $allowed += (int) isAllowed($store, $user, $limit, $seconds);
    }
    echo $allowed, "\n";
    return 0;
}

function settings(string $nodes, string $name, ?string $field = null, ?string $value = null): int
{
    $store = new Store($nodes);
    while (true) {
        [$held, $tag] = $store->read("settings:$name");
        $fields = json_decode($held ?? '{}', true);
        if ($field === null || ($fields[$field] ?? null) === $value) {
            break;
        }
        $fields[$field] = $value;
        ksort($fields);
        $store->replace("settings:$name", $tag, json_encode($fields));
    }
    echo json_encode((object) $fields), "\n";
    return 0;
}

if (!in_array($argv[1] ?? '', ['lock', 'counter', 'limit', 'settings'])) {
    fwrite(STDERR, "usage: php recipes.php lock|counter|limit|settings NODES NAME ..\n");
    exit(2);
}
exit($argv[1](...array_slice($argv, 2)));
