#!/bin/sh
# Plays a traffic file: ./play.sh < FILE > LOG, on the player that ./build.sh traffic builds. The player has no exit status of
# its own to give, so this ends with status 1 where a read or a write failed, as said on standard error, and with the player's
# where that is not 0.
player=$(dirname "$0")/crates/traffic/out/traffic
exec 3>&1
said=$("$player" 2>&1 >&3 3>&-)
status=$?
exec 3>&-
if [ -n "$said" ]; then
    printf '%s\n' "$said" >&2
    [ "$status" -ne 0 ] || status=1
fi
exit "$status"
