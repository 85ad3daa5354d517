"""kills.py PROGRAM IMAGE TRACKER ROUNDS: kills the bank, or the grower, at random times, and checks after each kill that its files fit and that no
acknowledged commit is missing."""
import random, signal, subprocess, sys, time
program, image, tracker, rounds = sys.argv[1], sys.argv[2], sys.argv[3], int(sys.argv[4])
random.seed(7)
acknowledged = total = torn = lost = further = 0
for i in range(rounds):
    run = subprocess.Popen([program, image, tracker, "run", str(i + 1)], stdout=subprocess.PIPE, text=True)
    time.sleep(random.uniform(0.002, 0.12))
    run.send_signal(signal.SIGKILL)
    text = run.communicate()[0]
    numbers = text[: text.rfind("\n") + 1].split()
    total += len(numbers)
    acknowledged = max(map(int, numbers), default=acknowledged)  # threads' numbers come in any order
    number, state = subprocess.run([program, image, tracker, "check"], capture_output=True, text=True, check=True).stdout.split()
    torn += state != "whole"
    lost += int(number) < acknowledged
    further += int(number) == acknowledged + 1
    acknowledged = int(number)
print(f"tracker {tracker}, kills {rounds}: {total} commits acknowledged, {torn} torn, {lost} with one lost, {further} with one more than acknowledged")
sys.exit(torn + lost > 0)
