"""lockfs on several nodes of one machine: corosync in network namespaces, faults, and what locks come to."""
