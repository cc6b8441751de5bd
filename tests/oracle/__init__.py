"""What the programs must answer, written from docs/PROTOCOL.md and from the rules of the shared log in words, apart from the crates' code.

- `protocol`: the requests of a stream
- `table`: the reply to each command
- `replies`: compares what a server sent with the requests that it answers
- `core`: the workers and the log, one transition at a time
- `schedule`: what mc_schedule prints for an event list
"""
