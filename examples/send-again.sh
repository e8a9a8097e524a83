#!/bin/sh
# A batch is cut off before its reply is read, and sent again under its number: it gets its reply, and stands once.
#
#   examples/send-again.sh FOLDER      leaves farm.journal in the folder
set -eu
if [ $# -ne 1 ]; then
    echo "usage: $0 FOLDER" >&2
    exit 2
fi
here=$(dirname "$0")
token=3f2f1bb18f734f22cd9d2ed809e69a8bf5d841332e29a79572c3c0a2f8f94d18
batch='{"invocation":"invocations/u-a","requestId":"upload-1","requests":[{"testResult":{"testId":"net/dns","resultId":"run-1","status":"PASS","expected":true}}]}'

ask() { # method body
    printf 'POST /prpc/luci.resultdb.v1.Recorder/%s HTTP/1.1\r\nAuthorization: Bearer tok-a\r\nUpdate-Token: %s\r\nContent-Length: %s\r\n\r\n%s' \
        "$1" "$token" "${#2}" "$2" | "$here/../rdb" answer --config "$here/farm.toml" --journal "$folder/farm.journal"
}

folder=$1
ask CreateInvocation '{"invocationId":"u-a","invocation":{"realm":"proj:ci"}}' > /dev/null
ask BatchCreateTestResults "$batch" | true # nobody reads the reply
ask BatchCreateTestResults "$batch"        # the reply that was lost
echo
"$here/../rdb" check --journal "$folder/farm.journal"
