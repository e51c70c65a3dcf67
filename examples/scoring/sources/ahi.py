# Events in an hour of sleep, rounded to one decimal.
def index(apneas, hypopneas, minutes_of_sleep):
    return round(60 * (apneas + hypopneas) / minutes_of_sleep, 1)
