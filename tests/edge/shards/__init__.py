"""Histories that are divided into shards: split, find for each shard, and merge."""
