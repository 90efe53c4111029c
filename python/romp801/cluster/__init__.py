"""Stores over several machines, on an etcd that runs already (docs/CLUSTER.md).

`client` has the stores of a cluster for programs, `outbox` hands on what goes from one store to another, and `slots`
moves a slot of keys. A node is `node`, with a `keeper` for each store: its `replica` follows, and its `term` runs jobs
while the node is the primary, with `reader` for what is only read. What they keep is told in `keys`, `history`,
`image` and `table`; `engine` asks etcd, `safety` has certificates and the secret, `held` stores in memory, `setup`
makes a cluster and changes it, and `audit` judges its history.
"""
