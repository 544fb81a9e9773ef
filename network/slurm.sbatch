#!/usr/bin/env python3
#SBATCH --job-name=rtcm2rinex
#SBATCH --array=0-99
#SBATCH --ntasks=1
#SBATCH --cpus-per-task=1
#SBATCH --mem=600M
#SBATCH --requeue
"""Converts the captures of the stations and spans of a list by a job array of Slurm. In the folder of the checkout:

    network/tasks 2024-05-17T00:00:00 2024-05-18T00:00:00 01H >day.tasks
    sbatch --array=0-99 network/slurm.sbatch day.tasks

Each task of the array takes every hundredth line of the list (of another array, every N-th), one after another, and writes
a line for each to slurm-JOB_TASK.out: its status, the line, and what it told. The last line has the counts of the task, as
`192 spans: 170 done, 22 unchanged, 0 no captures, 0 refused, 0 again`, and the status follows it: 75 if any span is to be
tried again, else 4 if any was refused, else 0. The counts of the whole job, with the same status, are shown by

    cat slurm-JOB_*.out | network/counts day.tasks

There a span whose task was killed or never began is to be tried again too. To go on, submit the same list again: what is
done is not done again.

Slurm runs a copy of this file, so NETWORK names the folder of the scripts, else `network` where the job was submitted. The variables
and the file of settings are those of `convert-span`.
"""

import os
import sys

sys.path.insert(0, os.environ.get("NETWORK") or f"{os.environ.get('SLURM_SUBMIT_DIR', '.')}/network")

from rtcm2rinex_network.ends import run_script  # noqa: E402
from rtcm2rinex_network.spans import run_task_of_array  # noqa: E402

run_script("slurm.sbatch", run_task_of_array, __doc__, "sbatch --array=0-N slurm.sbatch TASKS")
