#!/bin/sh
# Writes two requests: one that creates a task, made now and due in an hour (definition.sh), and one for the status of that task.
# The task's id is the first word, else the one below; the second word, if there is one, is the priority, and the third the id of a task
# that it waits for.
set -eu
id=${1:-AAAAAAAAQACAAAAAAAAAAA}
body=$(sh "$(dirname "$0")/definition.sh" "${2:-lowest}" ${3:+"$3"})
printf 'PUT /api/queue/v1/task/%s HTTP/1.1\r\nContent-Length: %s\r\n\r\n%s' "$id" "${#body}" "$body"
printf 'GET /api/queue/v1/task/%s/status HTTP/1.1\r\n\r\n' "$id"
