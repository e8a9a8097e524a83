#!/bin/sh
# Creates an invocation, runs tests that leave a JUnit report in report.xml, uploads the report, and finalises.
#
#   examples/upload.sh SERVER TOKEN REALM INVOCATION COMMAND..
#   examples/upload.sh 127.0.0.1:8080 tok-a proj:ci u-a pytest --junitxml=report.xml
set -eu
server=$1 bearer=$2 realm=$3 name=$4 calls=http://$1/prpc/luci.resultdb.v1.Recorder
shift 4
umask 077
update=$(curl -sf -D - -o sink.reply -H "Authorization: Bearer $bearer" "$calls/CreateInvocation" \
    -d "{\"invocationId\":\"$name\",\"invocation\":{\"realm\":\"$realm\"}}" | sed -n 's/^Update-Token: \([0-9a-f]*\).*/\1/p')
printf 'token = "%s"\nupdate_token = "%s"\n' "$bearer" "$update" >sink.toml
"$@" || echo "tests failed" # what failed stands in the report
"${0%/*}/../rdb" sink --config sink.toml --server "$server" --invocation "$name" --format junit <report.xml
curl -sf -H "Authorization: Bearer $bearer" -H "Update-Token: $update" "$calls/FinalizeInvocation" \
    -d "{\"name\":\"invocations/$name\"}"
