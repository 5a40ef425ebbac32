<?php
function total($prices) {
    $sum = 0;
    foreach ($prices as $name => $price) {
        $sum += $price;
    }
    return $sum;
}
$prices = ['tea' => 3, 'bread' => 4];
$prices['milk'] = 2;
$sum = total($prices);
echo $sum, "\n";
