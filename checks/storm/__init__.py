"""What checks/cluster_storm is made of: machines that fail (`house`, `proxy`, `weather`), wrong bodies (`broken`),
clients that note what they are told (`load`), and two who judge it (`judge`, and `linear`, which knows nothing of the
first)."""
