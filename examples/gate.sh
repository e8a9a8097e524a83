#!/bin/sh
# Is there a verdict before FLAKY? The worst statuses stand first, so one verdict tells.
#
#   examples/gate.sh URL TOKEN INVOCATION      as http://127.0.0.1:8080 tok-a u-v
#
# Ends with 0 where nothing is unexpected, 1 where something is, and 2 where it wasn't told.
set -u
if [ $# -ne 3 ]; then
    echo "usage: $0 URL TOKEN INVOCATION" >&2
    exit 2
fi
reply=$(curl -sf -H "Authorization: Bearer $2" -d "{\"invocations\":[\"invocations/$3\"],\"pageSize\":1,\"resultLimit\":1}" \
    "$1/prpc/luci.resultdb.v1.ResultDB/QueryTestVariants") || {
    echo "not told" >&2
    exit 2
}
case $reply in
*'"status":"UNEXPECTED"'* | *'"status":"UNEXPECTEDLY_SKIPPED"'*)
    echo "unexpected: $reply"
    exit 1
    ;;
esac
echo "nothing is unexpected"
