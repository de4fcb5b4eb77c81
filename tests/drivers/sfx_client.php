<?php
// Asks a resolver as a catalogue with a driver for SFX does, and prints the links that it shows.
//
// sfx_client.php BASE OPENURL [SERVICES]
//
// Written for the tests, from the description of such a driver: it asks for the detailed form and, unless SERVICES is
// `all`, for full texts alone; it takes the first element ctx_obj_targets, and of each of its children the name, the
// address and the service, and the statements on the coverage and the embargo.
[, $base, $openurl] = $argv;
$wanted = 'sfx.response_type=multi_obj_detailed_xml&' . (($argv[3] ?? '') === 'all' ? '' : 'svc.fulltext=yes&');
// The status of an answer does not count: its text is read in any case.
$any = stream_context_create(['http' => ['ignore_errors' => true]]);
$text = file_get_contents($base . (strpos($base, '?') === false ? '?' : '&') . $wanted . $openurl, false, $any);
$root = (new SimpleXMLElement($text))->xpath('//ctx_obj_targets');
foreach ($root[0]->children() as $target) {
    $coverage = '';
    if (isset($target->coverage->coverage_text)) {
        $words = $target->coverage->coverage_text;
        $coverage = (string)$words->threshold_text->coverage_statement;
        if (isset($words->embargo_text->embargo_statement)) {
            $coverage .= ' | ' . (string)$words->embargo_text->embargo_statement;
        }
    }
    echo implode("\n  ", array_filter([
        (string)$target->service_type . ': ' . (string)$target->target_public_name,
        (string)$target->target_url, $coverage])), "\n";
}
echo 'targets: ', count($root[0]->children()), "\n";
