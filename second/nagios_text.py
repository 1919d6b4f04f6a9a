"""Object text as Nagios reads it, where this project refuses it by name: directives without a value, other spellings, ranges that end before they begin."""
import re

HOSTS = {"host": "host_name", "hosts": "host_name", "hostgroup": "hostgroup_name", "hostgroups": "hostgroup_name"}
SERVICES = {**HOSTS, "description": "service_description", "servicegroup": "servicegroup_name", "servicegroups": "servicegroup_name"}
DEPENDENTS = {f"dependent_{name}": f"dependent_{standard}" for name, standard in SERVICES.items() if name != "hosts"}
MASTERS = {"master_host": "host_name", "master_host_name": "host_name", "notification_failure_options": "notification_failure_criteria", **DEPENDENTS}
SPELLINGS = {
    "host": {"host_groups": "hostgroups"},
    "service": {**HOSTS, "description": "service_description", "service_groups": "servicegroups"},
    "contact": {"contact_groups": "contactgroups"},
    "hostescalation": HOSTS,
    "serviceescalation": SERVICES,
    "hostdependency": {**HOSTS, **MASTERS},
    "servicedependency": {**SERVICES, **MASTERS, "master_description": "service_description", "master_service_description": "service_description"},
}
OWN_NAME = {"host": "host_name", "service": "service_description", "hostgroup": "hostgroup_name", "servicegroup": "servicegroup_name",
            "contact": "contact_name", "contactgroup": "contactgroup_name", "timeperiod": "timeperiod_name", "command": "command_name"}
LISTS = """host_name hostgroup_name hostgroups hostgroup_members service_description servicegroup_name servicegroups servicegroup_members members
dependent_host_name dependent_hostgroup_name dependent_service_description dependent_servicegroup_name contacts contact_groups contactgroups
contactgroup_members host_notification_commands service_notification_commands exclude""".split()
PERIODS = "notification_period host_notification_period service_notification_period escalation_period dependency_period".split()
# What stands for a value that is none, where a number or letters are wanted.
NOTHING = "\x01"


def standard(kind, name):
    """The standard name of a directive."""
    return SPELLINGS.get(kind, {}).get(name, name)


def is_lone(text):
    """Whether a line says the name of a directive alone."""
    return re.fullmatch("[A-Za-z0-9_]+", text) is not None


def without_value(kind, name):
    """The value of a directive that has none; none where it isn't there at all."""
    if name in ("name", "use", OWN_NAME.get(kind)):
        return None
    return "null" if name in LISTS or name in PERIODS else NOTHING


def seconds(text):
    clock = re.fullmatch("([0-9]{1,2}):([0-9]{2})", text)
    if not clock or int(clock[2]) > 59 or int(clock[1]) * 60 + int(clock[2]) > 1440:
        return None
    return int(clock[1]) * 60 + int(clock[2])


def range_of(text):
    """A range that ends before it begins holds nothing."""
    start, _, end = (text.partition("-")[0], 0, text.partition("-")[2])
    start, end = seconds(start), seconds(end)
    return "00:00-00:00" if start is not None and end is not None and end < start else text


def day_value(value):
    return ",".join(range_of(part) for part in value.split(","))
