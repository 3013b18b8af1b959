#!/bin/sh
# Writes the definition of a task that is made now and due in an hour. The first word, if there is one, is its priority, and the second the id
# of a task that it waits for.
set -eu
priority=${1:-lowest}
dependency=${2:+"\"$2\""}
created=$(date -u +%Y-%m-%dT%H:%M:%S.000Z)
deadline=$(date -u -d '+1 hour' +%Y-%m-%dT%H:%M:%S.000Z)
cat <<BODY
{
    "created": "$created",
    "deadline": "$deadline",
    "metadata": {
        "name": "build",
        "description": "Builds the program",
        "owner": "builds@example.com",
        "source": "https://example.com/"
    },
    "payload": {"command": ["make", "all"]},
    "priority": "$priority",
    "dependencies": [$dependency],
    "taskQueueId": "prov/wt"
}
BODY
