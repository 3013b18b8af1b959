#!/bin/sh
# Writes six requests: a task is created and its status asked (create_task.sh), a worker takes it, keeps it for longer, and tells that it
# completed; then it is run again. The task's id is the first word, else the one below.
set -eu
id=${1:-AAAAAAAAQACAAAAAAAAAAA}
worker='{"workerGroup": "builders", "workerId": "one", "tasks": 1}'
sh "$(dirname "$0")/create_task.sh" "$id"
printf 'POST /api/queue/v1/claim-work/prov/wt HTTP/1.1\r\nContent-Length: %s\r\n\r\n%s' "${#worker}" "$worker"
printf 'POST /api/queue/v1/task/%s/runs/0/reclaim HTTP/1.1\r\n\r\n' "$id"
printf 'POST /api/queue/v1/task/%s/runs/0/completed HTTP/1.1\r\n\r\n' "$id"
printf 'POST /api/queue/v1/task/%s/rerun HTTP/1.1\r\n\r\n' "$id"
