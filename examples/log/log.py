"""What the parts of the example share: the log and its names, calls that outlast a log that is killed and started again, and files that
are written whole."""
import json
import os
import pathlib
import time
import zlib

import redis

SHARDS = 2
REPLICAS = 2
TABLE = "sym text, t int, p int"
# a fall and then a rise
CLAUSE = (
    "PARTITION BY sym ORDER BY t MEASURES MATCH_NUMBER() AS n, FIRST(p) AS a, LAST(B.p) AS lo, LAST(C.p) AS hi "
    "PATTERN (A B+ C+) DEFINE B AS p < PREV(p), C AS p > PREV(p)"
)

# One step of the log: if this event isn't there yet, its row gets the next number of its partition, and both are kept together. An event
# before it has to be there: a log that was started again refuses the first events of a batch while it loads what it has, and may be ready
# for the later ones, which would then stand in the place of those that come again.
APPEND = """
local last = tonumber(redis.call('GET', KEYS[3]) or '0')
if tonumber(ARGV[1]) <= last then return 0 end
if tonumber(ARGV[1]) > last + 1 then return redis.error_reply('EARLY the event before this one is not there yet') end
redis.call('SET', KEYS[3], ARGV[1])
if ARGV[4] == 'close' then
    local count = redis.call('HGET', KEYS[2], ARGV[2]) or '0'
    redis.call('XADD', KEYS[1], '*', 'line', '{"close":' .. count .. ',"key":[' .. ARGV[2] .. ']}', 'key', ARGV[2])
else
    local number = redis.call('HINCRBY', KEYS[2], ARGV[2], 1)
    redis.call('XADD', KEYS[1], '*', 'line', '{"cells":' .. ARGV[3] .. ',"row":' .. number .. '}', 'key', ARGV[2])
end
return 1
"""


def connect(port):
    return redis.Redis(port=port, decode_responses=True, socket_timeout=10)


def lasting(call):
    """What the call gives. While the log isn't there, it is made again."""
    while True:
        try:
            return call()
        except (redis.exceptions.ConnectionError, redis.exceptions.TimeoutError, redis.exceptions.BusyLoadingError):
            time.sleep(0.05)


def shard_of(key):
    return zlib.crc32(key.encode()) % SHARDS


def text(value):
    return json.dumps(value, separators=(",", ":"))


def replace(path, data):
    """Writes a file beside this one, flushed, which then takes its place. It may have rows, so it is for its owner alone."""
    pathlib.Path(path + ".beside").unlink(missing_ok=True)
    with open(path + ".beside", "xb", opener=lambda name, flags: os.open(name, flags, 0o600)) as file:
        file.write(data)
        file.flush()
        os.fsync(file.fileno())
    os.rename(path + ".beside", path)


def read(path):
    with open(path, "rb") as file:
        return file.read()
