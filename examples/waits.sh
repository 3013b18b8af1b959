#!/bin/sh
# Writes seven requests: a task is created, and another one that waits for it, each with its status (create_task.sh); a worker takes the
# first and tells that it completed; then the status of the other one is asked, which is pending by now.
set -eu
folder=$(dirname "$0")
first=${1:-AAAAAAAAQACAAAAAAAAAAA}
second=${2:-AAAAAAAAQACAAAAAAAAAAQ}
worker='{"workerGroup": "builders", "workerId": "one", "tasks": 1}'
sh "$folder/create_task.sh" "$first"
sh "$folder/create_task.sh" "$second" lowest "$first"
printf 'POST /api/queue/v1/claim-work/prov/wt HTTP/1.1\r\nContent-Length: %s\r\n\r\n%s' "${#worker}" "$worker"
printf 'POST /api/queue/v1/task/%s/runs/0/completed HTTP/1.1\r\n\r\n' "$first"
printf 'GET /api/queue/v1/task/%s/status HTTP/1.1\r\n\r\n' "$second"
