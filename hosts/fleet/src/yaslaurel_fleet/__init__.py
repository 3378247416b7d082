"""Yaslaurel for many hosts, on engines that are there: figures of a month on Dask distributed (`month`), and alerts as records come, with Redis
Streams as the log (`log`), PostgreSQL as the store (`store`) and workers between them (`live`).

Scheduling, retries, logs and transactions are those engines'. The proved library judges each host's records in its order; everything here is
outside of what is proved.
"""
