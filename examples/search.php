<?php
$limit = 20;
$found = [];
for ($n = 2; $n < $limit; $n++) {
    for ($i = 2; $i * $i <= $n; $i++) {
        if ($n % $i == 0) {
            break;
        }
    }
    if ($i * $i > $n) {
        $found[] = $n;
    }
}
echo implode(' ', $found), "\n";
