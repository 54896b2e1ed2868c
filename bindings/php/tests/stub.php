<?php

/**
 * Tests that mysql_params.stub.php says what the extension has: `stub.php describe` writes it as it is loaded in a process, and
 * `stub.php STUB` as the file STUB declares it. Both have to be the same.
 */

namespace MysqlParams\Tests;

/** Returns what a function or a method takes and returns. */
function signature(\ReflectionFunctionAbstract $function): string
{
    $params = array_map(fn ($param) => trim("{$param->getType()} " . ($param->isVariadic() ? '...' : '') . "\${$param->getName()}" .
        ($param->isDefaultValueAvailable() ? ' = ' . var_export($param->getDefaultValue(), true) : '')), $function->getParameters());
    return "{$function->getShortName()}(" . implode(', ', $params) . "): {$function->getReturnType()}";
}

/** Returns lines that say what a class has. */
function class_lines(\ReflectionClass $class): array
{
    $interfaces = $class->getInterfaceNames();
    sort($interfaces);
    $lines = ["{$class->getName()}: " . implode(' ', array_filter([$class->isFinal() ? 'final' : '', $class->getParentClass() ? $class->getParentClass()->getName() : '', implode(' ', $interfaces)]))];
    foreach ($class->getReflectionConstants() as $constant) {
        if ($constant->getDeclaringClass()->getName() === $class->getName()) {
            $value = $constant->getValue();
            $lines[] = "  {$constant->getName()} = " . ($value instanceof \BackedEnum ? "case $value->value" : var_export($value, true));
        }
    }
    foreach ($class->getProperties() as $property) {
        if ($property->getDeclaringClass()->getName() === $class->getName()) {
            $lines[] = '  ' . implode(' ', \Reflection::getModifierNames($property->getModifiers())) . " {$property->getType()} {$property->getName()}";
        }
    }
    foreach ($class->getMethods() as $method) {
        if ($method->getDeclaringClass()->getName() === $class->getName()) {
            $lines[] = '  ' . implode(' ', \Reflection::getModifierNames($method->getModifiers())) . ' ' . signature($method);
        }
    }
    return array_map(fn ($line) => $line[0] === ' ' ? $class->getShortName() . $line : $line, $lines);
}

/** Returns lines that say what stands in the namespace of the extension. */
function lines(): array
{
    $lines = [];
    $functions = array_merge(...array_values(get_defined_functions()));
    foreach (array_filter($functions, fn ($name) => preg_match('/^mysqlparams\\\\[a-z_]+$/', $name)) as $name) {
        $lines[] = signature(new \ReflectionFunction($name));
    }
    foreach (array_filter(get_declared_classes(), fn ($name) => preg_match('/^MysqlParams\\\\[A-Za-z]+$/', $name)) as $name) {
        array_push($lines, ...class_lines(new \ReflectionClass($name)));
    }
    sort($lines);
    return $lines;
}

if (($argv[1] ?? '') !== 'describe') {
    require $argv[1];
}
echo str_replace('Traversable|array', 'iterable', implode("\n", lines())), "\n";
