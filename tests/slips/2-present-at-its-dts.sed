# A row counts as present at a probe equal to its DTS.
s/probe_ts < tested\.dts/probe_ts <= tested.dts/
