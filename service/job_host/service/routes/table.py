"""All routes below `/batch` but for the events."""

from __future__ import annotations

from job_host.service.routes import archive, audit, jobs, lists, logs, open_list, pictures, reports, schedules, versions, work

TABLES = (jobs, lists, logs, open_list, pictures, schedules, versions, work, reports, archive, audit)
ROUTES = [route for table in TABLES for route in table.ROUTES]
